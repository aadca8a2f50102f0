//! Which layer record stands, beside a plain Rust version: the places of the records sorted by layer and revision, then
//! one pass. It may allocate, which the library does not.

use std::hint::black_box;

use crate::{
    given::{LentTable, LAYER_LIMIT},
    library,
    random::Random,
    timing::Bench,
};

/// The highest rule, func, span, clipped, fill, mode and unchanged.
const LIMITS: [u32; 7] = [1, 1, LAYER_LIMIT, 1, 2, 15, 1];

fn is_good(words: &[u32]) -> bool {
    let in_range = || words[3..].iter().zip(LIMITS).all(|(&word, limit)| word <= limit);
    words[0] <= LAYER_LIMIT && (words[2] == 1 || words[2] == 0 && in_range())
}

fn plain(records: &[u32], colors: &[f32], table: &mut LentTable) -> u32 {
    let records: Vec<&[u32]> = records.chunks_exact(10).collect();
    if !records.iter().all(|words| is_good(words)) {
        return 4;
    }
    let key = |&at: &usize| (records[at][0], records[at][1]);
    let mut order: Vec<usize> = (0..records.len()).collect();
    order.sort_unstable_by_key(key);
    if order.windows(2).any(|pair| key(&pair[0]) == key(&pair[1])) {
        return 15;
    }
    let is_last = |k: usize| order.get(k + 1).is_none_or(|&next| records[next][0] != records[order[k]][0]);
    order = (0..order.len()).filter(|&k| is_last(k) && records[order[k]][2] == 0).map(|k| order[k]).collect();
    if table.layers.len() / 8 < order.len() || table.colors.len() / 4 < order.len() {
        return 1;
    }
    for (entry, &at) in order.iter().enumerate() {
        table.layers[8 * entry] = records[at][0];
        table.layers[8 * entry + 1..8 * entry + 8].copy_from_slice(&records[at][3..]);
        table.colors[4 * entry..4 * entry + 4].copy_from_slice(&colors[4 * at..4 * at + 4]);
    }
    table.count = order.len();
    0
}

/// So many records, ten revisions a layer, sorted by layer and revision or in any order.
fn sent(random: &mut Random, count: usize, is_sorted: bool) -> (Vec<u32>, Vec<f32>) {
    let mut places: Vec<u32> = (0..count as u32).collect();
    if !is_sorted {
        for at in (1..count).rev() {
            places.swap(at, random.below(at + 1));
        }
    }
    let words = |place: &u32| [place / 10, place % 10, 0, 0, 0, 0, 0, 0, 3, 0];
    let colors = |place: &u32| [*place as f32, 0.25, 0.5, 1.0];
    (places.iter().flat_map(words).collect(), places.iter().flat_map(colors).collect())
}

pub fn print(bench: &mut Bench) {
    let mut random = Random::new(7);
    for (name, is_sorted, aim) in [("sorted", true, 1.5), ("in any order", false, 20.0)] {
        for count in [12_500, 25_000, 50_000, 100_000, 200_000] {
            let (records, colors) = sent(&mut random, count, is_sorted);
            let empty = || LentTable { layers: vec![0; 8 * count], colors: vec![0.0; 4 * count], count: 0 };
            let (mut first, mut second) = (empty(), empty());
            let numbers = [plain(&records, &colors, &mut first), library::stand(&records, &colors, &mut second)];
            assert_eq!((numbers, &first.layers, first.count), ([0, 0], &second.layers, second.count));
            bench.line(
                &format!("{count} records, {name}"),
                1,
                (count == 100_000).then_some(aim),
                || {
                    black_box(plain(black_box(&records), &colors, &mut first));
                },
                || {
                    black_box(library::stand(black_box(&records), &colors, &mut second));
                },
            );
        }
    }
}
