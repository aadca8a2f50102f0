//! Every arrangement of up to three layers in one tile: draws, clipped draws and clips, covered in each way, changed or
//! not.

use reference::plain::Record;

use crate::{given::Fields, scene::word};

/// What a layer is: clip or draw, clipped, span, fill, alpha.
const SORTS: [(u32, u32, u32, u32, f32); 8] = [
    (0, 0, 0, 0, 1.0),
    (0, 0, 0, 0, 0.5),
    (0, 0, 0, 1, 1.0),
    (0, 1, 0, 0, 1.0),
    (0, 1, 0, 0, 0.5),
    (1, 0, 0, 0, 0.0),
    (1, 0, 1, 0, 0.0),
    (1, 0, 2, 0, 0.0),
];

/// How a layer covers the tile: by a carry of so many times this cover in each row, and by a segment in the tile.
const COVERS: [(usize, i8, bool); 6] =
    [(1, 16, false), (2, 16, false), (1, 8, false), (1, 0, false), (1, 16, true), (1, 0, true)];

/// How many ways there are for one layer.
const WAYS: usize = SORTS.len() * COVERS.len() * 2;

/// How many arrangements there are of `layers` layers.
pub fn count(layers: u32) -> usize {
    WAYS.pow(layers)
}

/// The arrangement of a number: its layers have the ids 1, 2 and 3, the even ones EvenOdd.
pub fn arrangement(layers: u32, number: usize) -> (Vec<u64>, Vec<Record>) {
    let mut rest = number;
    let (mut words, mut records) = (Vec::new(), Vec::new());
    for id in 1..=layers {
        let way = rest % WAYS;
        rest /= WAYS;
        let (func, clipped, span, fill, alpha) = SORTS[way % SORTS.len()];
        let (times, carry, segment) = COVERS[way / SORTS.len() % COVERS.len()];
        let unchanged = (way / SORTS.len() / COVERS.len()) as u32;
        let color = [id as f32 / 4.0, 0.5, 0.25, alpha];
        records.push(Record { id, rule: 1 - id % 2, func, span, clipped, fill, mode: 0, unchanged, color });
        let fields = |tile_x, local_y, cover| Fields {
            layer_id: id,
            tile_x,
            tile_y: 0,
            local_x: 3,
            local_y,
            double_area_multiplier: 32,
            cover,
        };
        if carry != 0 || !segment {
            let rows = (0..16).map(|local_y| word(fields(-1, local_y, carry)));
            words.extend(rows.flat_map(|word| vec![word; times]));
        }
        if segment {
            words.push(word(fields(0, 5, 4)));
        }
    }
    words.sort();
    (words, records)
}
