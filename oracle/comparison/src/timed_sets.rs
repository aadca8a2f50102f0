//! A kept set of segments: one edit beside working the set out anew. Both sides are the library's.

use std::hint::black_box;

use crate::{
    random::Random,
    set_calls::{self, KeptSet, Place},
    timed_parts::{scattered, COVER, LAYER, TILE},
    timing::Bench,
};

const PLACE: Place = Place { layer_id: LAYER, tile_x: TILE, tile_y: 0 };

/// A set with one slot more than it holds.
fn begun(part: &[u64]) -> KeptSet {
    let mut set = KeptSet {
        layer: 0,
        tile: [0; 2],
        carry: [0; 16],
        loads: [0; 16],
        count: 0,
        slots: vec![0; part.len() + 1],
        areas: vec![0; 256],
    };
    assert_eq!(set_calls::begin(PLACE, COVER, part, &mut set), 0);
    set
}

/// Segments that come and go, one at a time: each is taken in and let out again, which looks for it behind all others.
fn edits(set: &mut KeptSet, moved: &[u64]) {
    for &word in black_box(moved) {
        assert_eq!(set_calls::take_in(black_box(word), black_box(set)), 0);
        assert_eq!(set_calls::let_out(black_box(word), black_box(set)), 0);
    }
}

/// Two edits, and the two beginnings that they spare.
pub fn print(bench: &mut Bench) {
    let mut random = Random::new(4);
    for len in [4, 16, 64, 256] {
        let part = scattered(&mut random, len);
        let moved = scattered(&mut random, 16);
        let (mut anew, mut kept) = (begun(&part), begun(&part));
        edits(&mut kept, &moved);
        assert_eq!(kept.areas, anew.areas, "what is taken in and let out leaves d as it was");
        let begin = || {
            for _ in 0..32 {
                assert_eq!(set_calls::begin(PLACE, black_box(COVER), black_box(&part), black_box(&mut anew)), 0);
            }
        };
        bench.line(&format!("set: {len} segments, one edit"), 32, None, begin, || edits(&mut kept, &moved));
    }
}
