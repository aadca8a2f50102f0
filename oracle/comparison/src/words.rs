//! Packed words: packing, fields, order, searches.

use reference::{cpu, pixel_segment};

use crate::{
    given::{Fields, Key, LAYER_LIMIT},
    library::{self, UNTOUCHED},
    random::Random,
    tally::{caught, Kind, Tally},
};

pub type Segment = cpu::PixelSegment<16, 16>;

pub fn compare(tally: &mut Tally) {
    tally.random("PixelSegment::new", pack);
    tally.kind("PixelSegment::new, every pair of edges", pack_edges);
    tally.random("fields", fields);
    tally.random("order", order);
    tally.random("rows in order", rows);
    tally.random("search_last_by_key, tile y", |kind| search(kind, |random, w| Key::TileY(tile(random, w.tile_y()))));
    tally.random("search_last_by_key, tile x", |kind| search(kind, |random, w| Key::TileX(tile(random, w.tile_x()))));
    tally.random("search_last_by_key, layer id", |kind| {
        search(kind, |random, w| Key::LayerId(layer(random, w.layer_id())))
    });
    tally.random("search_last_by_key, tile x at least", |kind| {
        search(kind, |random, w| Key::TileXAtLeast(tile(random, w.tile_x()), random.once_in(2)))
    });
    tally.random("search_last_by_key, tile y not negative", |kind| {
        search(kind, |random, _| Key::TileYNotNegative(random.once_in(2)))
    });
}

pub fn segment(word: u64) -> Segment {
    pixel_segment::of_word(word)
}

/// A value at or beside an edge of its field, or any of its type.
pub fn any_fields(random: &mut Random) -> Fields {
    let layer_edges = [0, 1, (1 << 21) - 1, 1 << 21, (1 << 21) + 1, u32::MAX];
    Fields {
        layer_id: if random.once_in(2) { random.pick(&layer_edges) } else { random.word() as u32 },
        tile_x: tile(random, 4094),
        tile_y: tile(random, 2046),
        local_x: random.word() as u8,
        local_y: random.word() as u8,
        double_area_multiplier: random.word() as u8,
        cover: random.word() as i8,
    }
}

/// The numbers taken into their ranges; half of the time one of them then lies just outside.
pub fn near_range(any: Fields) -> Fields {
    let mut fields = any.reduced();
    let past = any.local_x % 3;
    let is_below = any.cover < 0;
    let beside = |low: i16, high: i16| if is_below { low - i16::from(past) } else { high + i16::from(past) };
    match any.local_y % 14 {
        0 => fields.layer_id = LAYER_LIMIT + 1 + u32::from(past),
        1 => fields.tile_x = beside(-2, 4095),
        2 => fields.tile_y = beside(-2, 2047),
        3 => fields.local_x = 16 + past,
        4 => fields.local_y = 16 + past,
        5 => fields.double_area_multiplier = 64 + past,
        6 => fields.cover = beside(-33, 32) as i8,
        _ => {}
    }
    fields
}

/// A tile number: near `near`, at an edge of its type or of its field, or any.
pub fn tile(random: &mut Random, near: i16) -> i16 {
    let edges = [i16::MIN, -7, -2, -1, 0, 1, 2046, 2047, 4094, 4095, 32766, 32767];
    match random.below(4) {
        0 => random.pick(&edges),
        1 => random.word() as i16,
        2 => near,
        _ => near.saturating_add(random.within(-1..=1) as i16),
    }
}

pub fn layer(random: &mut Random, near: u32) -> u32 {
    match random.below(3) {
        0 => near,
        1 => near.wrapping_add(random.within(-1..=1) as u32),
        _ => random.word() as u32,
    }
}

/// The Rust's word. None where it panics.
pub fn rust_pack(fields: Fields) -> Option<u64> {
    let Fields { layer_id, tile_x, tile_y, local_x, local_y, double_area_multiplier, cover } = fields;
    caught(|| u64::from(&Segment::new(layer_id, tile_x, tile_y, local_x, local_y, double_area_multiplier, cover)))
}

fn compare_pack(kind: &mut Kind, fields: Fields) {
    let ours = library::pack(fields);
    // For packing, the Rust is the reference on the fields' ranges only: outside, it is refused by 11 and the lent word
    // stays.
    let is_accepted = fields.are_in_range();
    let expected = if is_accepted { rust_pack(fields).map(|word| (0, word)) } else { Some((11, UNTOUCHED)) };
    kind.note(if is_accepted { "packed" } else { "refused" });
    kind.case(Some(ours) == expected, || format!("{fields:?}: expected {expected:x?}, the library {ours:x?}"));
}

/// Numbers near the ranges, and once in four times any.
fn pack(kind: &mut Kind) {
    let any = any_fields(&mut kind.random);
    let fields = if kind.random.once_in(4) { any } else { near_range(any) };
    compare_pack(kind, fields);
}

/// Every pair of fields at the edges of their ranges and types, the others as in P1.
fn pack_edges(kind: &mut Kind) {
    let tiles = [i64::from(i16::MIN), -2, -1, 0, 2045, 2046, 2047, 2048, 4093, 4094, 4095, 4096, 32766, 32767];
    let bytes = [0, 1, 15, 16, 31, 32, 63, 64, 127, 128, 255];
    let edges: [&[i64]; 7] = [
        &[0, 1, 2_097_150, 2_097_151, 2_097_152, i64::from(u32::MAX)],
        &tiles,
        &tiles,
        &bytes,
        &bytes,
        &bytes,
        &[-128, -127, -65, -64, -33, -32, -31, -1, 0, 1, 31, 32, 33, 63, 64, 127],
    ];
    for first in 0..7 {
        for second in 0..first {
            for &a in edges[first] {
                for &b in edges[second] {
                    let mut values = [5, 2, 0, 3, 4, 32, 16];
                    values[first] = a;
                    values[second] = b;
                    let [layer_id, tile_x, tile_y, local_x, local_y, multiplier, cover] = values;
                    compare_pack(
                        kind,
                        Fields {
                            layer_id: layer_id as u32,
                            tile_x: tile_x as i16,
                            tile_y: tile_y as i16,
                            local_x: local_x as u8,
                            local_y: local_y as u8,
                            double_area_multiplier: multiplier as u8,
                            cover: cover as i8,
                        },
                    );
                }
            }
        }
    }
}

fn fields(kind: &mut Kind) {
    let word = any_word(&mut kind.random);
    let w = segment(word);
    let rust = [
        w.layer_id().into(),
        w.tile_x().into(),
        w.tile_y().into(),
        w.local_x().into(),
        w.local_y().into(),
        pixel_segment::double_area_multiplier(w).into(),
        w.double_area().into(),
        w.cover().into(),
    ];
    let ours = library::fields(word);
    kind.case(ours == rust, || format!("{word:#x}: the Rust {rust:?}, the library {ours:?}"));
}

/// Any word; at times with fields that are all zeros or all ones.
pub fn any_word(random: &mut Random) -> u64 {
    let mut word = random.word();
    let mut shift = 0;
    for width in [6, 6, 4, 4, 21, 12, 11] {
        let field = ((1u64 << width) - 1) << shift;
        match random.below(6) {
            0 => word |= field,
            1 => word &= !field,
            _ => (),
        }
        shift += width;
    }
    word
}

fn order(kind: &mut Kind) {
    let word = any_word(&mut kind.random);
    let other = match kind.random.below(3) {
        0 => any_word(&mut kind.random),
        1 => word ^ (kind.random.word() & 0xF_FFFF),
        _ => word ^ (1 << kind.random.below(64)),
    };
    let rust = segment(word).cmp(&segment(other)) as i8 + 1;
    let ours = library::cmp(word, other);
    kind.note(["less", "equal", "greater"][rust as usize]);
    kind.case(ours as i8 == rust, || format!("{word:#x}, {other:#x}: the Rust {rust}, the library {ours}"));
}

/// Words whose fields are few, so that keys meet; sorted at times by the Rust's order, at times nearly.
pub fn any_row(random: &mut Random) -> Vec<u64> {
    let len = match random.below(8) {
        0 => random.below(3),
        7 => random.below(600),
        _ => random.below(24),
    };
    let spread = random.pick(&[1, 3, 40, 4096]);
    let mut words: Vec<u64> = (0..len)
        .map(|_| {
            let tile_y = random.pick(&[0, 1, 1, 1, 2, 2047]);
            let tile_x = random.below(spread) as u64;
            let layer_id = random.below(spread) as u64 * random.pick(&[1, 1, 511]);
            tile_y << 53 | (tile_x & 0xFFF) << 41 | (layer_id & 0x1F_FFFF) << 20 | random.word() & 0xF_FFFF
        })
        .collect();
    if !random.once_in(3) {
        words.sort_by_key(|&word| segment(word));
    }
    if len > 1 && random.once_in(6) {
        let i = random.below(len - 1);
        words.swap(i, i + 1);
    }
    words
}

fn rows(kind: &mut Kind) {
    let mut row = any_row(&mut kind.random);
    if kind.random.once_in(2) {
        row.iter_mut().for_each(|word| *word = *word & !(0x7FF << 53) | 1 << 53);
    }
    let stored_tile_y = match kind.random.below(4) {
        0 => kind.random.word(),
        _ => kind.random.below(3) as u64,
    };
    let ascends = row.windows(2).all(|pair| segment(pair[0]) <= segment(pair[1]));
    let in_row = row.iter().all(|&word| i128::from(segment(word).tile_y()) + 1 == i128::from(stored_tile_y));
    let rust = (ascends, ascends && in_row);
    kind.note(if rust.1 {
        "in order"
    } else if ascends {
        "another tile y"
    } else {
        "descending"
    });
    let ours = (library::does_ascend(&row), library::is_row(&row, stored_tile_y));
    kind.case(ours == rust, || format!("{row:x?}, tile y {stored_tile_y}: the Rust {rust:?}, the library {ours:?}"));
}

fn search(kind: &mut Kind, mut any_key: impl FnMut(&mut Random, Segment) -> Key) {
    let random = &mut kind.random;
    let words = any_row(random);
    let near = if words.is_empty() { random.word() } else { random.pick(&words) };
    let key = any_key(random, segment(near));
    let segments: Vec<Segment> = words.iter().map(|&word| segment(word)).collect();
    let rust = match key {
        Key::TileY(tile_y) => cpu::search_last_by_key(&segments, tile_y, |s| s.tile_y()),
        Key::TileX(tile_x) => cpu::search_last_by_key(&segments, tile_x, |s| s.tile_x()),
        Key::LayerId(layer_id) => cpu::search_last_by_key(&segments, layer_id, |s| s.layer_id()),
        Key::TileXAtLeast(start, wanted) => cpu::search_last_by_key(&segments, wanted, |s| s.tile_x() >= start),
        Key::TileYNotNegative(wanted) => cpu::search_last_by_key(&segments, wanted, |s| s.tile_y() >= 0),
        Key::LayerIdAtLeast(start, wanted) => cpu::search_last_by_key(&segments, wanted, |s| s.layer_id() >= start),
    };
    let ours = library::search_last_by_key(&words, key);
    let sorted = words.windows(2).all(|pair| segment(pair[0]) <= segment(pair[1]));
    kind.note(match (sorted, rust) {
        (true, Ok(_)) => "sorted and found",
        (true, Err(_)) => "sorted and absent",
        (false, Ok(_)) => "unsorted and found",
        (false, Err(_)) => "unsorted and absent",
    });
    kind.case(ours == rust, || format!("{key:?} in {words:x?}: the Rust {rust:?}, the library {ours:?}"));
}
