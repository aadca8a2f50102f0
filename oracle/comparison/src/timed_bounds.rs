//! Covers within bounds: the six planes of one layer in one tile, beside painting it four times, at its lowest and its
//! highest covers by both rules. Both sides are the library's.

use std::hint::black_box;

use crate::{
    exports, library,
    random::Random,
    timed_parts::{scattered, COVER, LAYER, TILE},
    timing::Bench,
};

/// The six planes, which every call writes over.
struct Planes {
    areas: [[i16; 256]; 2],
    weights: [[u16; 256]; 4],
}

fn bound(part: &[u64], bounds: &[i8], planes: &mut Planes) -> u32 {
    let Planes { areas: [lowest, highest], weights: [least_n, greatest_n, least_e, greatest_e] } = planes;
    unsafe {
        exports::ffi_bound_part(
            LAYER,
            TILE,
            0,
            part.as_ptr(),
            part.len(),
            bounds.as_ptr(),
            bounds.len(),
            &COVER,
            &COVER,
            lowest.as_mut_ptr(),
            256,
            highest.as_mut_ptr(),
            256,
            least_n.as_mut_ptr(),
            256,
            greatest_n.as_mut_ptr(),
            256,
            least_e.as_mut_ptr(),
            256,
            greatest_e.as_mut_ptr(),
            256,
        )
    }
}

/// The part with other covers.
fn with(part: &[u64], covers: impl Fn(i8) -> i8) -> Vec<u64> {
    let cover = |word: u64| ((word & 63) as i8) << 2 >> 2;
    part.iter().map(|&word| word & !63 | u64::from(covers(cover(word)) as u8 & 63)).collect()
}

pub fn print(bench: &mut Bench) {
    let mut random = Random::new(5);
    for len in [0, 4, 16, 64, 256] {
        let part = scattered(&mut random, len);
        let sides = [with(&part, |cover| cover.min(0)), with(&part, |cover| cover.max(0))];
        let bounds: Vec<i8> =
            (0..len).flat_map(|i| [0, 1].map(|side| ((sides[side][i] & 63) as i8) << 2 >> 2)).collect();
        let mut planes = Planes { areas: [[0; 256]; 2], weights: [[0; 256]; 4] };
        let mut plane = [0.0; 256];
        assert_eq!(bound(&part, &bounds, &mut planes), 0);
        for rule in 0..2 {
            for (side, part) in sides.iter().enumerate() {
                library::paint_part(part, COVER, rule, &mut plane);
                let weights = &planes.weights[2 * rule as usize..2 * rule as usize + 2];
                let is_inside = |k: usize| {
                    let weight = (plane[k] * 512.0) as u16;
                    weights[0][k] <= weight && weight <= weights[1][k]
                };
                assert!((0..256).all(is_inside), "the painted side {side} lies within the bounds");
            }
        }
        let paint = || {
            for rule in 0..2 {
                for part in &sides {
                    black_box(library::paint_part(black_box(part), black_box(COVER), rule, black_box(&mut plane)));
                }
            }
        };
        let bound = || {
            assert_eq!(bound(black_box(&part), black_box(&bounds), black_box(&mut planes)), 0);
        };
        bench.line(&format!("bounds: {len} segments"), 1, None, paint, bound);
    }
}
