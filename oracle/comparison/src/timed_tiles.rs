//! The work on the tiles of a row, as one call and as two: listing, then deciding from the list. Both sides are the
//! library's, with the row's opening; no layer is painted.

use std::hint::black_box;

use crate::{
    given::{Memory, Work},
    library,
    loads::Asked,
    random::Random,
    timed_rows::Ours,
    timed_scenes::{bands, clips, dense, draws, load, Row},
    timing::Bench,
    two_calls,
};

/// What the ratio should be at most.
const AIM: f64 = 1.1;

fn as_two(work: &Work, memory: &mut Memory) -> u32 {
    let number = two_calls::list_tile(work, memory);
    if number == 0 {
        two_calls::decide_tile(work, memory.told[2], memory)
    } else {
        number
    }
}

fn line(bench: &mut Bench, name: &str, row: &Row) {
    let (mut one, mut two) = (Ours::new(row), Ours::new(row));
    assert_eq!((one.work(library::work_tile), two.work(as_two)), (Ok(()), Ok(())));
    assert_eq!(one.memory, two.memory);
    let one = || assert_eq!(black_box(&mut one).work(library::work_tile), Ok(()));
    let two = || assert_eq!(black_box(&mut two).work(as_two), Ok(()));
    bench.line(&format!("tile work: {name}"), row.tiles, Some(AIM), one, two);
}

pub fn print(bench: &mut Bench) {
    for (tiles, segments) in [(16, 128), (64, 512), (256, 512)] {
        line(bench, &format!("{tiles} tiles, {segments} segments"), &load(Asked { seed: 0, tiles, segments }, 0));
    }
    line(bench, "8 tiles, 8 layers, 64 segments each", &dense(64));
    let random = &mut Random::new(2);
    for layers in [4, 32, 128] {
        line(bench, &format!("32 tiles, {layers} translucent"), &bands(random, draws(layers, 0.5)));
    }
    line(bench, "32 tiles, 64 with clips", &bands(random, clips(64)));
}
