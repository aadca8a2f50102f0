//! One tile through several frames: the smallest histories in which the Rust keeps it with a wrong picture
//! (docs/DIFFERENCES.md).

use reference::{
    cpu::RGBA,
    painter::row::Frame,
    plain::{Record, Rgba},
};

use crate::{given::Fields, scene::word, scene::Picture};

pub const RED: Rgba = [1.0, 0.0, 0.0, 1.0];
pub const GREEN: Rgba = [0.0, 1.0, 0.0, 0.5];
pub const BLUE: Rgba = [0.0, 0.0, 1.0, 1.0];
pub const BLACK: Rgba = [0.0, 0.0, 0.0, 1.0];

/// A layer in a frame: its record, and the words that cover the tiles from one on, or from the middle of it on.
#[derive(Clone, Debug)]
pub struct Layer {
    pub record: Record,
    pub words: Vec<u64>,
}

pub fn column(layer_id: u32, tile_x: i16, local_x: u8, cover: i8) -> Vec<u64> {
    let fields = |local_y| Fields { layer_id, tile_x, tile_y: 0, local_x, local_y, double_area_multiplier: 32, cover };
    (0..16).map(|local_y| word(fields(local_y))).collect()
}

/// Full in every tile, and changed.
pub fn draw(id: u32, color: Rgba) -> Layer {
    let record = Record { id, rule: 0, func: 0, span: 0, clipped: 0, fill: 0, mode: 0, unchanged: 0, color };
    Layer { record, words: column(id, -1, 0, 16) }
}

pub fn clip(id: u32, span: u32) -> Layer {
    let mut layer = draw(id, [0.0; 4]);
    (layer.record.func, layer.record.span) = (1, span);
    layer
}

impl Layer {
    pub fn clipped(mut self) -> Self {
        self.record.clipped = 1;
        self
    }

    pub fn unchanged(mut self) -> Self {
        self.record.unchanged = 1;
        self
    }

    pub fn with(mut self, words: Vec<u64>) -> Self {
        self.words = words;
        self
    }

    /// Whether it has the same record, but for the flag, and the same words.
    pub fn is_same(&self, other: &Self) -> bool {
        let numbers = |Record { id, rule, func, span, clipped, fill, mode, unchanged: _, color }: Record| {
            (id, rule, func, span, clipped, fill, mode, color.map(f32::to_bits))
        };
        numbers(self.record) == numbers(other.record) && self.words == other.words
    }
}

/// 0 a draw that is not clipped, 1 a clip, 2 a clipped draw.
pub fn kind_of(record: &Record) -> u8 {
    if record.func == 1 {
        1
    } else {
        2 * record.clipped as u8
    }
}

/// A frame: its layers, the tiles that are worked, from one up to another, and its clear colour.
#[derive(Clone, Debug)]
pub struct Shot {
    pub layers: Vec<Layer>,
    pub tiles: (usize, usize),
    pub clear: Rgba,
}

impl Shot {
    /// On black.
    pub fn new(layers: Vec<Layer>, tiles: (usize, usize)) -> Self {
        Self { layers, tiles, clear: BLACK }
    }

    /// The row's words, the table, and the clear colours.
    pub fn picture(&self, previous_clear: Option<Rgba>) -> Picture {
        let mut words: Vec<u64> = self.layers.iter().flat_map(|layer| layer.words.clone()).collect();
        words.sort_by_key(|word| word >> 20);
        let records = self.layers.iter().map(|layer| layer.record).collect();
        Picture { words, records, frame: Frame { clear: self.clear, previous_clear, channels: RGBA } }
    }
}

fn shot(layers: &[Layer]) -> Shot {
    Shot::new(layers.to_vec(), (0, 1))
}

/// Histories A to H, in that order.
pub fn histories() -> [Vec<Shot>; 8] {
    let over = || [draw(1, RED), draw(2, GREEN)];
    let half = clip(1, 1).with(column(1, 0, 8, 16));
    let ended = || draw(3, BLUE).with([column(3, -1, 0, 16), column(3, 0, 8, -16)].concat());
    [
        vec![shot(&over()), shot(&[draw(0, BLUE), draw(1, RED).unchanged()])],
        vec![shot(&[half, draw(2, RED).clipped()]), shot(&[clip(1, 1), draw(2, RED).clipped().unchanged()])],
        vec![shot(&over()), shot(&[draw(1, RED).unchanged(), draw(2, GREEN).clipped()])],
        vec![
            shot(&[clip(0, 9), draw(1, RED), draw(2, GREEN).clipped()]),
            shot(&[draw(0, BLUE), draw(1, RED).unchanged(), draw(2, GREEN).clipped().unchanged()]),
        ],
        vec![
            shot(&[draw(1, RED), clip(2, 9), draw(3, GREEN).clipped()]),
            shot(&[draw(0, BLUE), draw(1, RED).unchanged(), draw(3, GREEN).clipped().unchanged()]),
        ],
        // Tile 1 lies outside the crop of the frame in which the layer changes.
        vec![
            Shot::new(vec![draw(1, RED)], (0, 2)),
            Shot::new(vec![draw(1, BLUE)], (0, 1)),
            Shot::new(vec![draw(1, BLUE).unchanged()], (0, 2)),
        ],
        // Layer 3 ends in tile 0. A row that is opened at tile 1 lists it there, with a carry of zero, in the place of
        // layer 2.
        vec![
            Shot::new(vec![draw(1, RED), draw(2, GREEN), ended()], (0, 2)),
            Shot::new(vec![draw(1, RED).unchanged(), ended().unchanged()], (1, 2)),
        ],
        vec![
            shot(&over()),
            shot(&[draw(1, RED).unchanged()]),
            shot(&[draw(1, RED).unchanged(), draw(2, GREEN).unchanged()]),
        ],
    ]
}
