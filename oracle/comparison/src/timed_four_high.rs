//! One layer in one tile of 64 pixels (W-213) beside one of 256: `ffi_gpu_paint_part` beside `ffi_paint_part`.

use std::hint::black_box;

use crate::{
    four_high_rows::{self, LayerState, Opening},
    given::Fields,
    library,
    random::Random,
    scene,
    timing::Bench,
};

/// How many parts are painted in turn.
const PARTS: usize = 8;

/// What the ratio should be at most.
const AIM: f64 = 0.4;

/// What a range should take at most of the single calls.
const RANGE_AIM: f64 = 0.5;

/// Segments anywhere in a tile of so many pixel rows, light enough with the carry.
fn fields(random: &mut Random, len: usize, rows: usize) -> Vec<Fields> {
    let covers = [-4, -3, -2, -1, 1, 2, 3, 4];
    let one = |i: usize| Fields {
        layer_id: 5,
        tile_x: 3,
        tile_y: 0,
        local_x: random.below(16) as u8,
        local_y: (i % rows) as u8,
        double_area_multiplier: random.below(33) as u8,
        cover: random.pick(&covers),
    };
    (0..len).map(one).collect()
}

/// Parts of both heights.
struct Pair {
    sixteen: Vec<u64>,
    four: Vec<u64>,
}

/// The same segments at both heights.
fn same(random: &mut Random, len: usize) -> Pair {
    let fields = fields(random, len, 4);
    let four = fields.iter().map(|&fields| library::gpu_pack(fields).1).collect();
    Pair { sixteen: fields.iter().map(|&fields| scene::word(fields)).collect(), four }
}

/// As many segments in a pixel row at both heights: so many in the higher tile, and a quarter of them in the other.
fn quarter(random: &mut Random, len: usize) -> Pair {
    let higher = fields(random, len, 16);
    let lower = fields(random, len / 4, 4);
    let four = lower.iter().map(|&fields| library::gpu_pack(fields).1).collect();
    Pair { sixteen: higher.iter().map(|&fields| scene::word(fields)).collect(), four }
}

fn line(bench: &mut Bench, name: &str, pairs: &[Pair], rule: u32) {
    let (mut large, mut small) = ([0.0; 256], [0.0; 64]);
    let sixteen = || {
        for pair in black_box(pairs) {
            black_box(library::paint_part(black_box(&pair.sixteen), black_box([16; 16]), black_box(rule), &mut large));
            black_box(&mut large);
        }
    };
    let four = || {
        for pair in black_box(pairs) {
            black_box(library::gpu_paint_part(black_box(&pair.four), black_box([16; 4]), black_box(rule), &mut small));
            black_box(&mut small);
        }
    };
    bench.line(name, PARTS, Some(AIM), sixteen, four);
}

/// 64 tiles of one layer in one call, beside 64 calls: a row with so many segments of each of so many layers in a tile.
fn range_line(bench: &mut Bench, random: &mut Random, layers: u32, len: usize) {
    const TILES: usize = 64;
    let mut all = Vec::new();
    for tile_x in 0..TILES as i16 {
        for layer_id in 1..=layers {
            all.extend(fields(random, len, 4).into_iter().map(|fields| Fields { layer_id, tile_x, ..fields }));
        }
    }
    // Each cover is taken back by the next of its pixel row, so that carries stay light.
    for (i, fields) in all.iter_mut().enumerate() {
        fields.cover = if (i / 4) % 2 == 0 { 3 } else { -3 };
    }
    let row: Vec<u64> = all.iter().map(|&fields| library::gpu_pack(fields).1).collect();
    let call = Opening { tile_y: 0, from: 0, to: TILES as i32, layer: 1, rule: 0 };
    let mut opened = LayerState { words: [0; 6], covers: [0; 4] };
    assert_eq!(four_high_rows::open(call, &row, &mut opened), 0);
    let (mut one, mut many, mut done) = ([0.0; 64 * TILES], [0.0; 64 * TILES], [0; 3]);
    let single = || {
        let mut state = black_box(opened);
        for tile in 0..TILES {
            let plane = &mut one[tile * 64..][..64];
            assert_eq!(four_high_rows::work(&mut state, tile as i32, black_box(&row), plane), 0);
        }
        black_box((&mut state, &mut one));
    };
    let range = || {
        let mut state = black_box(opened);
        assert_eq!(four_high_rows::work_tiles(&mut state, 0, TILES, black_box(&row), &mut many, &mut done), 0);
        assert_eq!(done, [TILES, 0, 0]);
        black_box((&mut state, &mut many));
    };
    let name = format!("four high: 64 tiles in one call, {layers} layers of {len} segments");
    bench.line(&name, TILES, Some(RANGE_AIM), single, range);
}

pub fn print(bench: &mut Bench) {
    let mut random = Random::new(1);
    for (layers, len) in [(1, 4), (1, 16), (8, 4), (8, 16)] {
        range_line(bench, &mut random, layers, len);
    }
    let mut shape = |name: &str, make: fn(&mut Random, usize) -> Pair, len: usize| {
        let pairs: Vec<Pair> = (0..PARTS).map(|_| make(&mut random, len)).collect();
        for (rule, rule_name) in [(0, "NonZero"), (1, "EvenOdd")] {
            line(bench, &format!("four high: {name}, {rule_name}"), &pairs, rule);
        }
    };
    shape("no segment", same, 0);
    shape("1 segment in each", same, 1);
    shape("4 segments in each", same, 4);
    shape("16 segments in each", same, 16);
    shape("4 segments, 1", quarter, 4);
    shape("16 segments, 4", quarter, 16);
    shape("64 segments, 16", quarter, 64);
}
