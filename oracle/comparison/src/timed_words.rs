//! Single operations on packed words: searches by each key, the order of a row, and packing.

use std::hint::black_box;

use crate::{
    builds::Task,
    given::{Fields, Key},
    library,
    random::Random,
    scene::word,
    timing::Bench,
};

/// How many keys are looked for in turn, and how many words are packed.
const CALLS: usize = 1000;

/// Fields in range, of this layer and tile.
fn any_fields(random: &mut Random, layer_id: u32, tile_x: i16, tile_y: i16) -> Fields {
    Fields {
        layer_id,
        tile_x,
        tile_y,
        local_x: random.below(16) as u8,
        local_y: random.below(16) as u8,
        double_area_multiplier: random.below(33) as u8,
        cover: random.within(-16..=16) as i8,
    }
}

/// So many words in order. `fields` makes one from a number that is -1 or above; about eight words have the same.
fn sorted(random: &mut Random, len: usize, fields: fn(&mut Random, i16) -> Fields) -> Vec<u64> {
    let mut words: Vec<u64> = (0..len)
        .map(|_| {
            let number = any_number(random, len);
            word(fields(random, number))
        })
        .collect();
    words.sort();
    words
}

fn any_number(random: &mut Random, len: usize) -> i16 {
    random.below(2 + len / 8) as i16 - 1
}

/// Times a search for values in turn, by the key of this number (`Task::Search`).
fn search(
    bench: &mut Bench,
    name: &str,
    (key, words, values): (usize, &[u64], &[i32]),
    ours: impl Fn(&[u64], i32) -> Result<usize, usize>,
) {
    let found = |&value: &i32| ours(words, value).map_or_else(|at| 2 * at + 1, |at| 2 * at) as u64;
    let answers: Vec<u64> = values.iter().map(found).collect();
    let run = || {
        for &value in values {
            let _ = black_box(ours(black_box(words), black_box(value)));
        }
    };
    let name = format!("search: {name}, {} words", words.len());
    bench.beside(&name, values.len(), None, Task::Search { key, words, values }, &answers, run);
}

/// Every key of the painter in slices that it may have: of a plate, of a row, of a tile.
pub fn print_searches(bench: &mut Bench) {
    use library::search_last_by_key as find;
    let random = &mut Random::new(3);
    for len in [16, 64, 1000] {
        let plate = &sorted(random, len, |random, number| any_fields(random, 3, 4, number));
        let row = &sorted(random, len, |random, number| any_fields(random, 3, number, 0));
        let tile = &sorted(random, len, |random, number| any_fields(random, (number + 1) as u32, 4, 0));
        let numbers: &Vec<i32> = &(0..CALLS).map(|_| any_number(random, len).into()).collect();
        let layers: &Vec<i32> = &numbers.iter().map(|&number| number + 1).collect();
        search(bench, "tile y", (0, plate, numbers), |plate, y| find(plate, Key::TileY(y as i16)));
        search(bench, "tile x", (1, row, numbers), |row, x| find(row, Key::TileX(x as i16)));
        search(bench, "layer id", (2, tile, layers), |tile, id| find(tile, Key::LayerId(id as u32)));
        search(bench, "tile x at least", (3, row, numbers), |row, x| find(row, Key::TileXAtLeast(x as i16, false)));
        search(bench, "tile y not negative", (4, plate, &[0; CALLS]), |plate, is| {
            find(plate, Key::TileYNotNegative(is != 0))
        });
    }
}

/// What each call on a row judges, in nanoseconds a word.
pub fn print_order(bench: &mut Bench) {
    let mut random = Random::new(4);
    for len in [16, 512, 2048] {
        let words = &sorted(&mut random, len, |random, number| any_fields(random, 3, number, 0));
        let ours = || {
            black_box(library::does_ascend(black_box(words)));
        };
        let answer = library::does_ascend(words).into();
        let task = |with_tile_y| Task::Ordering { words, with_tile_y };
        bench.beside(&format!("order, a word of {len}"), len, None, task(false), &[answer], ours);
        let ours = || {
            black_box(library::is_row(black_box(words), black_box(1)));
        };
        let answer = library::is_row(words, 1).into();
        bench.beside(&format!("order and tile y, a word of {len}"), len, None, task(true), &[answer], ours);
    }
}

/// Fields that both pack. The library tests the seven ranges first; the Rust has no such test.
pub fn print_packing(bench: &mut Bench) {
    let mut random = Random::new(5);
    let one = |i: usize| any_fields(&mut random, i as u32 % 100, i as i16 % 64, 0);
    let fields: Vec<Fields> = (0..CALLS).map(one).collect();
    let words: Vec<u64> = fields.iter().map(|&fields| word(fields)).collect();
    assert!(fields.iter().zip(&words).all(|(&fields, &word)| library::pack(fields) == (0, word)));
    let ours = || {
        for fields in &fields {
            black_box(library::pack(*black_box(fields)));
        }
    };
    bench.beside("packing", CALLS, None, Task::Packing { words: &words }, &words, ours);
}
