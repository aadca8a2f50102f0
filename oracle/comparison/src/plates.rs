//! Rows of a plate, chosen with and without a crop.

use std::{collections::BTreeSet, ops::Range};

use reference::painter::plate::{row_of, seen_in};

use crate::{
    library,
    random::Random,
    tally::{caught, Kind, Tally},
};

pub fn compare(tally: &mut Tally) {
    tally.random("print_row, with and without a crop", print_row);
    tally.kind("print_row, every row number up to 131,072", every_row);
    tally.kind("print_row and for_each_row, every crop of a small plate", every_crop);
    tally.random("for_each_row, with and without a crop", for_each_row);
}

/// Segments with these stored tile numbers, tile x -1, and each with its place as its layer.
fn words_of(tile_ys: &[u64], random: &mut Random) -> Vec<u64> {
    tile_ys.iter().enumerate().map(|(i, &tile_y)| tile_y << 53 | (i as u64) << 20 | random.word() & 0xF_FFFF).collect()
}

/// Stored tile numbers: few, so that rows have several segments; sorted, nearly sorted, or in no order.
fn any_tiles(random: &mut Random) -> Vec<u64> {
    let len = match random.below(8) {
        0 => random.below(3),
        7 => random.below(300),
        _ => random.below(24),
    };
    let highest = random.pick(&[2, 4, 40, 2047]);
    let mut tiles: Vec<u64> =
        (0..len).map(|_| if random.once_in(6) { 0 } else { random.below(highest + 1) as u64 }).collect();
    if !random.once_in(3) {
        tiles.sort();
    }
    if len > 1 && random.once_in(6) {
        let i = random.below(len - 1);
        tiles.swap(i, i + 1);
    }
    tiles
}

/// A row number: one of the segments' or beside it, the same with higher bits that the cast drops, at an edge, or any.
fn any_row(tiles: &[u64], random: &mut Random) -> usize {
    let near = if tiles.is_empty() { 0 } else { random.pick(tiles) as usize };
    let edges = [0, 1, 2046, 2047, 32767, 32768, 65534, 65535, 65536, 65537, 131_071, usize::MAX - 1, usize::MAX];
    match random.below(8) {
        0 => random.pick(&edges),
        1 => random.word() as usize,
        2 => near.wrapping_sub(1).wrapping_add(65536 * random.below(1 << 20)),
        _ => near.saturating_sub(random.below(3)),
    }
}

/// A crop around row j, at times with nothing in it; none in one case of three.
fn any_crop(j: usize, random: &mut Random) -> Option<(usize, usize)> {
    let beside = |random: &mut Random| j.saturating_add(random.below(3)).saturating_sub(random.below(3));
    let end = if random.once_in(4) { random.word() as usize } else { beside(random) };
    let start = if random.once_in(4) { random.below(3) } else { beside(random) };
    (!random.once_in(3)).then_some((start, end))
}

fn places(range: Range<usize>) -> Vec<usize> {
    range.collect()
}

/// The places of row j, or nothing where it lies outside the crop.
fn library_row(words: &[u64], j: usize, crop: Option<(usize, usize)>) -> Option<Vec<usize>> {
    library::is_in_crop(crop, j).then(|| places(library::find_row(words, j)))
}

fn compare_row(kind: &mut Kind, tiles: &[u64], words: &[u64], j: usize, crop: Option<(usize, usize)>) {
    let rust = caught(|| row_of(words, j, crop));
    let ours = library_row(words, j, crop);
    kind.note(match (tiles.windows(2).all(|pair| pair[0] <= pair[1]), &ours) {
        (_, None) => "outside the crop",
        (true, Some(row)) if row.is_empty() => "sorted and empty",
        (true, Some(_)) => "sorted and found",
        (false, Some(row)) if row.is_empty() => "unsorted and empty",
        (false, Some(_)) => "unsorted and found",
    });
    kind.case(rust.as_ref() == Some(&ours), || {
        format!("row {j}, crop {crop:?} of {tiles:?}: the Rust {rust:?}, the library {ours:?}")
    });
}

fn print_row(kind: &mut Kind) {
    let tiles = any_tiles(&mut kind.random);
    let words = words_of(&tiles, &mut kind.random);
    let j = any_row(&tiles, &mut kind.random);
    let crop = any_crop(j, &mut kind.random);
    compare_row(kind, &tiles, &words, j, crop);
}

/// The rows at both ends, -1 among them, by every number that a cast to 16 bits can take, twice.
fn every_row(kind: &mut Kind) {
    let tiles = [0, 0, 1, 2, 2, 3, 2045, 2046, 2047, 2047];
    let words = words_of(&tiles, &mut kind.random);
    for j in 0..=131_072 {
        compare_row(kind, &tiles, &words, j, None);
    }
}

/// Every crop of a small plate, empty and reversed ones and those past its end too, by every row.
fn every_crop(kind: &mut Kind) {
    let tiles = [0, 1, 1, 2, 4, 4, 5];
    let words = words_of(&tiles, &mut kind.random);
    let ends = [0, 1, 2, 3, 4, 5, 6, usize::MAX - 1, usize::MAX];
    for (start, end) in ends.iter().flat_map(|&start| ends.map(|end| (start, end))) {
        ends.iter().for_each(|&j| compare_row(kind, &tiles, &words, j, Some((start, end))));
        compare_plate(kind, &tiles, &words, 5, Some((start, end)));
    }
    compare_plate(kind, &tiles, &words, 5, None);
}

/// The whole of it: the segments of negative rows are passed over, then each row in the crop is painted from its own
/// segments, and the others are left as they were.
fn compare_plate(kind: &mut Kind, tiles: &[u64], words: &[u64], height: usize, crop: Option<(usize, usize)>) {
    let passed = library::find_not_negative(words);
    let written: Vec<usize> = (0..height).filter(|&j| library::is_in_crop(crop, j)).collect();
    let row = |&j: &usize| library::find_row(&words[passed..], j).map(|place| passed + place);
    let ours = (written.iter().flat_map(row).collect::<BTreeSet<usize>>(), written);
    let rust = caught(|| seen_in(words, height, crop));
    kind.note(match (ours.1.len(), passed) {
        (0, _) => "plate: every row skipped",
        (rows, _) if rows < height => "plate: some rows skipped",
        (_, 0) => "plate: no row skipped",
        _ => "plate: no row skipped, negative rows passed over",
    });
    kind.case(rust.as_ref() == Some(&ours), || {
        format!(
            "{height} rows of {tiles:?}, crop {crop:?}: the Rust {rust:?}, the library {ours:?}, {passed} passed over"
        )
    });
}

/// A plate whole, by a crop of one row, and by any crop.
fn for_each_row(kind: &mut Kind) {
    let tiles = any_tiles(&mut kind.random);
    let words = words_of(&tiles, &mut kind.random);
    let height = 1 + kind.random.below(5);
    let j = kind.random.below(height);
    let crop = any_crop(j, &mut kind.random);
    for crop in [None, Some((j, j + 1)), crop] {
        compare_plate(kind, &tiles, &words, height, crop);
    }
}
