//! One layer in one tile: `paint_layer` beside `ffi_paint_part` and `ffi_paint_layer`.

use std::hint::black_box;

use reference::{
    painter::recorder,
    plain::{Record, RULES},
};

use crate::{
    builds::Task,
    given::{Canvas, Fields, Queue, State, Work},
    layers::lent,
    library,
    random::Random,
    scene::word,
    timing::Bench,
};

/// How many parts are painted in turn: few enough to stay near the processor.
const PARTS: usize = 8;

pub const LAYER: u32 = 5;
pub const TILE: i16 = 3;

/// What the ratio should be at most.
const AIM: f64 = 0.65;

/// The incoming cover.
pub const COVER: [i8; 16] = [16; 16];

/// The words of a layer in a tile.
type Part = Vec<u64>;

/// A segment of the layer: its column, its row, how much of its double area, and its cover.
fn placed(local_x: u8, local_y: u8, double_area_multiplier: u8, cover: i8) -> u64 {
    word(Fields { layer_id: LAYER, tile_x: TILE, tile_y: 0, local_x, local_y, double_area_multiplier, cover })
}

/// Segments anywhere in the tile, as many in each pixel row, light enough with the carry: 16 of up to 4, and 16.
pub fn scattered(random: &mut Random, len: usize) -> Vec<u64> {
    let covers = [-4, -3, -2, -1, 1, 2, 3, 4];
    let one = |i| placed(random.below(16) as u8, i as u8 % 16, random.below(33) as u8, random.pick(&covers));
    let mut words: Vec<u64> = (0..len).map(one).collect();
    for i in 1..len {
        words.swap(i, random.below(i + 1));
    }
    words
}

/// The edge at which a shape ends, one segment a row: upright in one column, or slanted over eight.
fn edge(random: &mut Random, is_slanted: bool) -> Vec<u64> {
    let (first, multiplier) = (random.below(9) as u8, random.below(33) as u8);
    (0..16).map(|y| placed(first + u8::from(is_slanted) * y / 2, y, multiplier, -16)).collect()
}

/// What a part is, and how one is made.
type Shape = (&'static str, fn(&mut Random) -> Vec<u64>);

const SHAPES: [Shape; 7] = [
    ("no segment", |_| Vec::new()),
    ("4 segments", |random| scattered(random, 4)),
    ("16 segments", |random| scattered(random, 16)),
    ("an upright edge", |random| edge(random, false)),
    ("a slanted edge", |random| edge(random, true)),
    ("64 segments", |random| scattered(random, 64)),
    ("256 segments", |random| scattered(random, 256)),
];

/// What `ffi_paint_layer` is given to paint the part: a row, a table and a queue with this layer alone.
fn call(part: &[u64], rule: u32, func: u32) -> Work {
    let color = [0.5, 0.25, 0.75, 0.5];
    let record = Record { id: LAYER, rule, func, span: 0, clipped: 0, fill: 0, mode: 0, unchanged: 0, color };
    let mut queue = Queue { ids: vec![0; 256], covers: vec![0; 4096] };
    queue.ids[0] = LAYER;
    queue.covers[..16].copy_from_slice(&COVER);
    let (row, table) = (part.to_vec(), lent(&[record]));
    Work { tile: TILE.into(), row, table, is_kept: false, clear: [0.0; 4], previous: None, queue }
}

/// After the work on the tile, which took in one carry.
const WORKED: State = State { words: [0, 0, 8, TILE as u32 + 1, 0, 0], counts: [1, 1] };

fn canvas() -> Canvas {
    Canvas { state: WORKED, plane: vec![7.0; 256], mark: 7 }
}

fn bits(plane: &[f32]) -> Vec<u32> {
    plane.iter().map(|number| number.to_bits()).collect()
}

/// All ways to paint give the same coverages and the same octets; the bits of these coverages.
fn check(parts: &[Part], rule: u32) -> Vec<u64> {
    let mut answers = Vec::new();
    for part in parts {
        let wanted = recorder::paint(part, COVER, RULES[rule as usize]);
        let mut plane = [7.0; 256];
        assert_eq!(library::paint_part(part, COVER, rule, &mut plane), (0, wanted.mark));
        assert_eq!(bits(&plane), bits(&wanted.plane));
        for (func, mark) in [(0, wanted.mark), (1, 0)] {
            let mut canvas = canvas();
            let number = library::paint_layer(&call(part, rule, func), LAYER, &mut canvas);
            assert_eq!((number, canvas.mark), (0, mark));
            assert_eq!(bits(&canvas.plane), bits(&wanted.plane));
        }
        answers.extend(plane.map(|number| u64::from(number.to_bits())));
    }
    answers
}

/// A line beside the Rust, which paints each part as a clip.
fn line(bench: &mut Bench, name: &str, aim: Option<f64>, parts: &[Part], rule: u32, ours: impl FnMut()) {
    let (words, lens) = (parts.concat(), parts.iter().map(Vec::len).collect::<Vec<_>>());
    let task = Task::Parts { words: &words, lens: &lens, cover: COVER[0], rule };
    bench.beside(name, PARTS, aim, task, &check(parts, rule), ours);
}

/// Parts given alone, to `ffi_paint_part`.
fn alone(parts: &[Part], rule: u32) -> impl FnMut() + '_ {
    let mut plane = [0.0; 256];
    move || {
        for part in black_box(parts) {
            black_box(library::paint_part(black_box(part), black_box(COVER), black_box(rule), &mut plane));
            black_box(&mut plane);
        }
    }
}

/// Layers of a table, drawn (0) or as clips (1), by `ffi_paint_layer`.
fn of_table(parts: &[Part], rule: u32, func: u32) -> impl FnMut() {
    let calls: Vec<Work> = parts.iter().map(|part| call(part, rule, func)).collect();
    let mut canvas = canvas();
    move || {
        for call in black_box(&calls) {
            // No clip is left from the call before.
            canvas.state = WORKED;
            black_box(library::paint_layer(call, LAYER, &mut canvas));
            black_box(&mut canvas);
        }
    }
}

/// The parts of each shape, by each rule.
fn each(mut line: impl FnMut(&str, &[Part], u32)) {
    let mut random = Random::new(1);
    for (name, words) in SHAPES {
        let parts: Vec<Part> = (0..PARTS).map(|_| words(&mut random)).collect();
        for (rule, rule_name) in [(0, "NonZero"), (1, "EvenOdd")] {
            line(&format!("{name}, {rule_name}"), &parts, rule);
        }
    }
}

pub fn print_alone(bench: &mut Bench) {
    each(|name, parts, rule| {
        line(bench, &format!("part: {name}"), Some(AIM), parts, rule, alone(parts, rule));
    });
}

pub fn print_of_table(bench: &mut Bench) {
    for (func, func_name) in [(0, "drawn"), (1, "as a clip")] {
        each(|name, parts, rule| {
            line(bench, &format!("{func_name}: {name}"), None, parts, rule, of_table(parts, rule, func));
        });
    }
}
