//! The rows that are timed.

use reference::plain::Record;
use tile_rows::Func;

use crate::{
    given::Fields,
    jobs::words_of,
    loads::{made, Asked},
    outline,
    random::Random,
    scene::word,
};

/// A row of tiles from 0 on, with its layers.
pub struct Row {
    pub tiles: usize,
    pub words: Vec<u64>,
    pub records: Vec<Record>,
}

fn draw(id: u32, rule: u32, alpha: f32) -> Record {
    let color = [0.5, 0.25, 0.75, alpha];
    Record { id, rule, func: 0, span: 0, clipped: 0, fill: 0, mode: 0, unchanged: 0, color }
}

/// Draws of one colour, the odd ones EvenOdd.
pub fn draws(layers: u32, alpha: f32) -> Vec<Record> {
    (0..layers).map(|id| draw(id, id % 2, alpha)).collect()
}

/// Every fourth layer clips the three above it.
pub fn clips(layers: u32) -> Vec<Record> {
    let record = |id| match id % 4 {
        0 => Record { func: 1, span: 3, ..draw(id, 0, 0.0) },
        _ => Record { clipped: 1, ..draw(id, id % 2, 0.5) },
    };
    (0..layers).map(record).collect()
}

/// A made load, its layers with the given rule.
pub fn load(asked: Asked, rule: u32) -> Row {
    let words = words_of(&made(asked));
    Row { tiles: asked.tiles as usize, words, records: (0..8).map(|id| draw(id, rule, 1.0)).collect() }
}

/// A tile row of the tour's part drawing, as row 0: outlines with a clip, callouts and labels of letters.
pub fn part(row: i16) -> Row {
    let text = include_str!("../../../docs/tour/plate/part.outline");
    let figure = outline::text::read(text).expect("the figure is one");
    let segments = figure.segments().expect("its points are in range");
    let repacked = |segment: &tile_rows::PixelSegment| {
        let tile_rows::Fields { layer_id, tile_x, local_x, local_y, double_area_multiplier, cover, .. } =
            segment.fields();
        word(Fields { layer_id, tile_x, tile_y: 0, local_x, local_y, double_area_multiplier, cover })
    };
    let words = figure.row(&segments, row).iter().map(repacked).collect();
    Row { tiles: figure.tiles as usize, words, records: figure.layers.iter().map(record).collect() }
}

fn record(layer: &outline::Layer) -> Record {
    let rule = layer.rule.code();
    match layer.func {
        Func::Clip { span } => Record { func: 1, span, ..draw(layer.id, rule, 0.0) },
        Func::Draw(style) => {
            let (clipped, color) = (u32::from(style.is_clipped), style.fill.color().numbers());
            Record { clipped, color, ..draw(layer.id, rule, 1.0) }
        }
    }
}

/// Layers that are carried through every tile and painted there, with so many pairs of segments in each tile that take
/// nothing to the next.
pub fn level(tiles: usize, layers: u32, pairs: usize) -> Row {
    let mut random = Random::new(6);
    let mut words = Vec::new();
    for (tile_x, layer_id) in (-1..tiles as i16).flat_map(|tile| (0..layers).map(move |layer| (tile, layer))) {
        let mut add = |local_x, local_y, double_area_multiplier, cover| {
            words.push(word(Fields { layer_id, tile_x, tile_y: 0, local_x, local_y, double_area_multiplier, cover }));
        };
        if tile_x < 0 {
            (0..16).for_each(|y| add(0, y, 0, 16));
            continue;
        }
        for i in 0..pairs {
            let (x, y, multiplier) = (random.below(16) as u8, i as u8 % 16, random.below(33) as u8);
            add(x, y, multiplier, -2);
            add(15 - x, y, multiplier, 2);
        }
    }
    Row { tiles, words, records: draws(layers, 0.5) }
}

/// Eight tiles and eight opaque layers, each with so many segments in each tile. What one tile adds, the next takes off.
pub fn dense(each: usize) -> Row {
    let mut random = Random::new(5);
    let mut words = Vec::new();
    for (tile_x, layer_id) in (0..8).flat_map(|tile| (0..8).map(move |layer| (tile, layer))) {
        for i in 0..each {
            let sign = if (i / 16 + tile_x as usize).is_multiple_of(2) { 1 } else { -1 };
            let (local_x, local_y, cover) = (random.below(16) as u8, i as u8 % 16, sign * (1 + random.below(4) as i8));
            let double_area_multiplier = random.below(33) as u8;
            words.push(word(Fields { layer_id, tile_x, tile_y: 0, local_x, local_y, double_area_multiplier, cover }));
        }
    }
    Row { tiles: 8, words, records: (0..8).map(|id| draw(id, 0, 1.0)).collect() }
}

/// 32 tiles with a band of each layer: a slanted edge in one tile, at times left of the row, and one in a later tile, at
/// times right of it.
pub fn bands(random: &mut Random, records: Vec<Record>) -> Row {
    const TILES: i16 = 32;
    let mut words = Vec::new();
    for record in &records {
        let start = random.within(-1..=i64::from(TILES) - 2) as i16;
        let end = random.within(i64::from(start) + 1..=i64::from(TILES)) as i16;
        for (tile_x, cover) in [(start, 16), (end, -16)] {
            for y in 0..16 {
                let (layer_id, double_area_multiplier) = (record.id, random.below(33) as u8);
                let (local_x, local_y) = (y, y);
                words.push(word(Fields {
                    layer_id,
                    tile_x,
                    tile_y: 0,
                    local_x,
                    local_y,
                    double_area_multiplier,
                    cover,
                }));
            }
        }
    }
    words.sort();
    Row { tiles: TILES as usize, words, records }
}

/// Rows of as many tiles and the same layers, from tile row 0 on.
pub struct Rows {
    pub tiles: usize,
    pub rows: Vec<Vec<u64>>,
    pub records: Vec<Record>,
}

/// So many rows, each put into a tile row of its own.
pub fn plate(count: usize, records: Vec<Record>, mut row: impl FnMut(u64) -> Row) -> Rows {
    let rows: Vec<Row> = (0..count as u64).map(&mut row).collect();
    let moved = |(tile_y, row): (usize, &Row)| row.words.iter().map(|word| word + ((tile_y as u64) << 53)).collect();
    Rows { tiles: rows[0].tiles, rows: rows.iter().enumerate().map(moved).collect(), records }
}

/// No tile, and so many segments of each layer left of it.
pub fn left_of(layers: u32, each: usize) -> Row {
    let mut random = Random::new(9);
    let mut one = |layer_id, i| {
        let cover = random.pick(&[-4, 5, 7]);
        let (local_y, double_area_multiplier) = (i as u8 % 16, 0);
        word(Fields { layer_id, tile_x: -1, tile_y: 0, local_x: 0, local_y, double_area_multiplier, cover })
    };
    let words = (0..layers).flat_map(|layer_id| (0..each).map(|i| one(layer_id, i)).collect::<Vec<_>>()).collect();
    Row { tiles: 0, words, records: draws(layers, 1.0) }
}
