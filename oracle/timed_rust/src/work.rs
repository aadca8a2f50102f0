//! The work of each kind, from plain numbers.

use std::hint::black_box;

use reference::{
    cpu::{self, RGBA},
    painter::{
        row::Frame,
        timed::{ClipPainter, TimedRows},
    },
    pixel_segment::{double_area_multiplier, of_word},
    Table,
};

type Segment = cpu::PixelSegment<16, 16>;

pub trait Work {
    /// What is timed.
    fn run(&mut self);

    /// What it gives: floats by their bits, a search by twice the place and 1 where nothing is found.
    fn answers(&mut self) -> Vec<u64>;
}

fn segments_of(words: &[u64]) -> Vec<Segment> {
    words.iter().map(|&word| of_word(word)).collect()
}

/// Slices of these lengths, one behind the other.
fn cut(words: &[u64], lens: &[usize]) -> Vec<Vec<Segment>> {
    let mut left = segments_of(words).into_iter();
    lens.iter().map(|&len| left.by_ref().take(len).collect()).collect()
}

/// The bits of planes one behind the other.
fn bits(planes: &[[f32; 256]]) -> Vec<u64> {
    planes.iter().flatten().map(|number| number.to_bits().into()).collect()
}

pub struct Parts {
    parts: Vec<Vec<Segment>>,
    cover: [i8; 16],
    rule: u32,
    painter: ClipPainter,
}

impl Parts {
    pub fn new(words: &[u64], lens: &[usize], cover: i8, rule: u32) -> Self {
        Self { parts: cut(words, lens), cover: [cover; 16], rule, painter: ClipPainter::default() }
    }
}

impl Work for Parts {
    fn run(&mut self) {
        for part in black_box(&self.parts) {
            self.painter.paint(black_box(part), black_box(self.cover), black_box(self.rule));
        }
    }

    fn answers(&mut self) -> Vec<u64> {
        self.painter.planes = Some(Vec::new());
        self.run();
        bits(&self.painter.planes.take().unwrap())
    }
}

pub struct Rows {
    rows: TimedRows,
    tiles: usize,
}

impl Rows {
    pub fn new(words: &[u64], lens: &[usize], table: Table, tiles: usize) -> Self {
        let frame = Frame { clear: [1.0; 4], previous_clear: None, channels: RGBA };
        Self { rows: TimedRows::new(cut(words, lens), table, frame), tiles }
    }
}

impl Work for Rows {
    fn run(&mut self) {
        black_box(&mut self.rows).run(black_box(self.tiles));
    }

    fn answers(&mut self) -> Vec<u64> {
        self.rows.painter.planes = Some(Vec::new());
        self.run();
        bits(&self.rows.painter.planes.take().unwrap())
    }
}

/// A row with no tile: its answers are the queue.
pub struct Opening(pub Rows);

impl Work for Opening {
    fn run(&mut self) {
        self.0.run();
    }

    fn answers(&mut self) -> Vec<u64> {
        self.run();
        let carries = self.0.rows.queue();
        carries
            .iter()
            .flat_map(|carry| [carry.id.into()].into_iter().chain(carry.cover.map(|byte| byte as u64)))
            .collect()
    }
}

/// A search by one key for one value.
type By = fn(&[Segment], i32) -> Result<usize, usize>;

/// By tile y, tile x, layer id, tile x at least a value, and tile y not negative.
const KEYS: [By; 5] = [
    |plate, value| cpu::search_last_by_key(plate, value as i16, |segment| segment.tile_y()),
    |row, value| cpu::search_last_by_key(row, value as i16, |segment| segment.tile_x()),
    |tile, value| cpu::search_last_by_key(tile, value as u32, |segment| segment.layer_id()),
    |row, value| cpu::search_last_by_key(row, false, |segment| segment.tile_x() >= value as i16),
    |plate, value| cpu::search_last_by_key(plate, value != 0, |segment| segment.tile_y() >= 0),
];

pub struct Search {
    by: By,
    segments: Vec<Segment>,
    values: Vec<i32>,
}

impl Search {
    pub fn new(key: usize, words: &[u64], values: &[i32]) -> Self {
        Self { by: KEYS[key], segments: segments_of(words), values: values.to_vec() }
    }
}

impl Work for Search {
    /// By a pointer, a search is not inlined; the other side's is not either.
    fn run(&mut self) {
        let by = black_box(self.by);
        for &value in &self.values {
            let _ = black_box(by(black_box(&self.segments), black_box(value)));
        }
    }

    fn answers(&mut self) -> Vec<u64> {
        let found = |&value: &i32| (self.by)(&self.segments, value).map_or_else(|at| 2 * at + 1, |at| 2 * at);
        self.values.iter().map(|value| found(value) as u64).collect()
    }
}

pub struct Ordering {
    segments: Vec<Segment>,
    with_tile_y: bool,
}

impl Ordering {
    pub fn new(words: &[u64], with_tile_y: bool) -> Self {
        Self { segments: segments_of(words), with_tile_y }
    }

    fn holds(&self) -> bool {
        if self.with_tile_y {
            is_row(black_box(&self.segments), black_box(0))
        } else {
            does_ascend(black_box(&self.segments))
        }
    }
}

/// By the Rust's own order; it has no such judgement.
#[inline(never)]
fn does_ascend(row: &[Segment]) -> bool {
    row.windows(2).all(|pair| pair[0] <= pair[1])
}

#[inline(never)]
fn is_row(row: &[Segment], tile_y: i16) -> bool {
    row.iter().all(|segment| segment.tile_y() == tile_y) && row.windows(2).all(|pair| pair[0] <= pair[1])
}

impl Work for Ordering {
    fn run(&mut self) {
        black_box(self.holds());
    }

    fn answers(&mut self) -> Vec<u64> {
        vec![self.holds().into()]
    }
}

/// The fields of a packed word.
struct Fields {
    layer_id: u32,
    tile_x: i16,
    tile_y: i16,
    local_x: u8,
    local_y: u8,
    double_area_multiplier: u8,
    cover: i8,
}

impl Fields {
    fn of(word: u64) -> Self {
        let segment: Segment = of_word(word);
        Self {
            layer_id: segment.layer_id(),
            tile_x: segment.tile_x(),
            tile_y: segment.tile_y(),
            local_x: segment.local_x(),
            local_y: segment.local_y(),
            double_area_multiplier: double_area_multiplier(segment),
            cover: segment.cover(),
        }
    }
}

pub struct Packing(Vec<Fields>);

impl Packing {
    pub fn new(words: &[u64]) -> Self {
        Self(words.iter().map(|&word| Fields::of(word)).collect())
    }
}

#[inline(never)]
fn pack(fields: &Fields) -> Segment {
    let Fields { layer_id, tile_x, tile_y, local_x, local_y, double_area_multiplier, cover } = *fields;
    Segment::new(layer_id, tile_x, tile_y, local_x, local_y, double_area_multiplier, cover)
}

impl Work for Packing {
    fn run(&mut self) {
        for fields in &self.0 {
            black_box(pack(black_box(fields)));
        }
    }

    fn answers(&mut self) -> Vec<u64> {
        self.0.iter().map(|fields| u64::from(&pack(fields))).collect()
    }
}
