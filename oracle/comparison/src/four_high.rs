//! Tiles four pixels high (W-213): packing, fields, order and searches against the Rust at that height; coverages and
//! carries against rows 0 to 3 of the Rust's painter at 16, which has no such height.

use reference::{
    cpu,
    painter::{recorder, row},
    pixel_segment,
    plain::{Record, RULES},
};

use crate::{
    exports,
    given::{Fields, Key},
    library::{self, UNTOUCHED},
    random::Random,
    scene,
    tally::{caught, Kind, Tally},
    words,
};

type Segment = cpu::PixelSegment<16, 4>;

pub fn compare(tally: &mut Tally) {
    tally.random("four high: PixelSegment::new", pack);
    tally.kind("four high: PixelSegment::new, edges", pack_edges);
    tally.random("four high: fields", fields);
    tally.random("four high: order", order);
    tally.random("four high: search_last_by_key", search);
    tally.random("four high: rows", rows);
    tally.random("four high: empty and full", empty_and_full);
    tally.random("four high: cover_carry", carry);
    tally.random("four high: paint_layer, one layer alone", paint);
}

fn segment(word: u64) -> Segment {
    pixel_segment::of_word(word)
}

/// Whether every number lies in its field's range at this height.
fn are_in_range(fields: Fields) -> bool {
    let sixteen = Fields { tile_y: 0, local_y: 0, ..fields };
    sixteen.are_in_range() && (-1..=8190).contains(&fields.tile_y) && fields.local_y < 4
}

fn rust_pack(fields: Fields) -> Option<u64> {
    let Fields { layer_id, tile_x, tile_y, local_x, local_y, double_area_multiplier, cover } = fields;
    caught(|| u64::from(&Segment::new(layer_id, tile_x, tile_y, local_x, local_y, double_area_multiplier, cover)))
}

fn compare_pack(kind: &mut Kind, fields: Fields) {
    let ours = library::gpu_pack(fields);
    let is_accepted = are_in_range(fields);
    let expected = if is_accepted { rust_pack(fields).map(|word| (0, word)) } else { Some((11, UNTOUCHED)) };
    kind.note(if is_accepted { "packed" } else { "refused" });
    kind.case(Some(ours) == expected, || format!("{fields:?}: expected {expected:x?}, the library {ours:x?}"));
}

/// Numbers in their ranges, half of the time with one at or beside an edge of this height, and once in four times any.
fn pack(kind: &mut Kind) {
    let any = words::any_fields(&mut kind.random);
    let random = &mut kind.random;
    let mut fields = any;
    if !random.once_in(4) {
        fields = any.reduced();
        fields.tile_y = any.tile_y.rem_euclid(8192) - 1;
        fields.local_y = any.local_y % 4;
        match random.below(6) {
            0 => fields.tile_y = random.pick(&[-3, -2, -1, 2046, 2047, 2048, 8189, 8190, 8191, 8192]),
            1 => fields.local_y = random.pick(&[3, 4, 5, 15, 16]),
            2 => fields.tile_x = random.pick(&[-2, -1, 4094, 4095]),
            _ => (),
        }
    }
    compare_pack(kind, fields);
}

fn pack_edges(kind: &mut Kind) {
    for tile_y in [i16::MIN, -2, -1, 0, 2046, 2047, 8189, 8190, 8191, 8192, i16::MAX] {
        for local_y in [0, 1, 2, 3, 4, 15, 16, 255] {
            for tile_x in [-2, -1, 0, 4094, 4095] {
                for cover in [-33, -32, -1, 0, 31, 32] {
                    let (layer_id, local_x, double_area_multiplier) = (5, 3, 32);
                    compare_pack(
                        kind,
                        Fields { layer_id, tile_x, tile_y, local_x, local_y, double_area_multiplier, cover },
                    );
                }
            }
        }
    }
}

fn fields(kind: &mut Kind) {
    let word = words::any_word(&mut kind.random);
    let w = segment(word);
    let rust = [
        w.layer_id().into(),
        w.tile_x().into(),
        w.tile_y().into(),
        w.local_x().into(),
        w.local_y().into(),
        pixel_segment::double_area_multiplier(w).into(),
        w.double_area().into(),
        w.cover().into(),
    ];
    let ours = library::gpu_fields(word);
    let at_once = library::gpu_fields_at_once(word);
    kind.case(ours == rust && at_once == rust, || {
        format!("{word:#x}: the Rust {rust:?}, the library {ours:?}, {at_once:?}")
    });
}

/// Words that are equal in the upper 46 bits, that differ in one bit, and any.
fn order(kind: &mut Kind) {
    let word = words::any_word(&mut kind.random);
    let other = match kind.random.below(3) {
        0 => words::any_word(&mut kind.random),
        1 => word ^ (kind.random.word() & 0x3_FFFF),
        _ => word ^ (1 << kind.random.below(64)),
    };
    let rust = segment(word).cmp(&segment(other)) as i8 + 1;
    let ours = library::gpu_cmp(word, other);
    kind.note(["less", "equal", "greater"][rust as usize]);
    kind.case(ours as i8 == rust, || format!("{word:#x}, {other:#x}: the Rust {rust}, the library {ours}"));
}

fn search(kind: &mut Kind) {
    let random = &mut kind.random;
    let words = words::any_row(random);
    let near = segment(if words.is_empty() { random.word() } else { random.pick(&words) });
    let segments: Vec<Segment> = words.iter().map(|&word| segment(word)).collect();
    let beside = random.within(-1..=1) as i16;
    let wanted = random.once_in(2);
    let (key, rust) = match random.below(6) {
        0 => {
            let tile_y = near.tile_y() + beside;
            (Key::TileY(tile_y), cpu::search_last_by_key(&segments, tile_y, |s| s.tile_y()))
        }
        1 => {
            let tile_x = near.tile_x() + beside;
            (Key::TileX(tile_x), cpu::search_last_by_key(&segments, tile_x, |s| s.tile_x()))
        }
        2 => {
            let start = near.tile_x() + beside;
            (Key::TileXAtLeast(start, wanted), cpu::search_last_by_key(&segments, wanted, |s| s.tile_x() >= start))
        }
        3 => {
            let start = near.layer_id().saturating_add_signed(beside.into());
            (Key::LayerIdAtLeast(start, wanted), cpu::search_last_by_key(&segments, wanted, |s| s.layer_id() >= start))
        }
        4 => (Key::TileYNotNegative(wanted), cpu::search_last_by_key(&segments, wanted, |s| s.tile_y() >= 0)),
        _ => {
            let layer_id = near.layer_id().saturating_add_signed(beside.into());
            (Key::LayerId(layer_id), cpu::search_last_by_key(&segments, layer_id, |s| s.layer_id()))
        }
    };
    let ours = library::gpu_search_last_by_key(&words, key);
    kind.note(if rust.is_ok() { "found" } else { "absent" });
    kind.case(ours == rust, || format!("{key:?} in {words:x?}: the Rust {rust:?}, the library {ours:?}"));
}

/// Words in any order, and in the Rust's: whether they ascend, and are a row of the first word's tile y or the next.
fn rows(kind: &mut Kind) {
    let mut words = words::any_row(&mut kind.random);
    let random = &mut kind.random;
    if random.once_in(2) {
        let tile_y = random.word() & (0x1FFF << 51);
        words.iter_mut().for_each(|word| *word = *word & (u64::MAX >> 13) | tile_y);
    }
    if !random.once_in(3) {
        words.sort_by_key(|&a| segment(a));
    }
    let stored = words.first().map_or(0, |word| word >> 51) + u64::from(random.once_in(4));
    let ascends = words.windows(2).all(|pair| segment(pair[0]) <= segment(pair[1]));
    let is_row = ascends && words.iter().all(|&word| i64::from(segment(word).tile_y()) == stored as i64 - 1);
    let ours = unsafe {
        (
            exports::ffi_gpu_does_ascend(words.as_ptr(), words.len()),
            exports::ffi_gpu_is_row(words.as_ptr(), words.len(), stored),
        )
    };
    kind.note(if is_row {
        "a row"
    } else if ascends {
        "ascending, no row"
    } else {
        "descending"
    });
    kind.case(ours == (ascends, is_row), || format!("{words:x?}, {stored}: the library {ours:?}"));
}

/// A cover at this height beside one 16 high with the same rows: rows of 0 are empty, and the first row is repeated.
fn empty_and_full(kind: &mut Kind) {
    let cover = any_cover(&mut kind.random);
    let rule = kind.random.below(2) as u32;
    let mut repeated = [cover[0]; 16];
    repeated[..4].copy_from_slice(&cover);
    let at_sixteen = (library::is_empty(sixteen(cover), rule), library::is_full(repeated, rule));
    let ours = unsafe { (exports::ffi_gpu_is_empty(&cover, rule), exports::ffi_gpu_is_full(&cover, rule)) };
    kind.note(match ours {
        (true, _) => "empty",
        (_, true) => "full",
        _ => "neither",
    });
    kind.case(ours == at_sixteen, || format!("{cover:?}, {rule}: at 16 {at_sixteen:?}, the library {ours:?}"));
}

/// Segments of one layer in one tile, in pixel rows 0 to 3: packed at both heights.
fn any_part(random: &mut Random) -> (Vec<u64>, Vec<u64>) {
    let len = random.pick(&[0, 1, 5, 20, 40]);
    let widest = random.pick(&[1, 4, 31]);
    let packed = |_| {
        let cover = if random.once_in(20) { -32 } else { random.within(-widest..=widest) as i8 };
        let (local_x, local_y) = (random.below(16) as u8, random.below(4) as u8);
        let double_area_multiplier = random.below(64) as u8;
        let fields = Fields { layer_id: 5, tile_x: 3, tile_y: 0, local_x, local_y, double_area_multiplier, cover };
        (rust_pack(fields).expect("a word"), scene::word(fields))
    };
    (0..len).map(packed).unzip()
}

fn any_cover(random: &mut Random) -> [i8; 4] {
    let one = random.pick(&[0, 16, -16, 32, 48]);
    match random.below(3) {
        0 => [one; 4],
        1 => [(); 4].map(|()| random.within(-127..=127) as i8),
        _ => [(); 4].map(|()| random.within(-40..=40) as i8),
    }
}

/// A cover 16 rows high with these in rows 0 to 3.
fn sixteen(cover: [i8; 4]) -> [i8; 16] {
    let mut all = [0; 16];
    all[..4].copy_from_slice(&cover);
    all
}

fn is_heavy(part: &[u64], cover: [i8; 4]) -> bool {
    let mut loads = cover.map(|byte| u32::from(byte.unsigned_abs()));
    for &word in part {
        let w = segment(word);
        loads[usize::from(w.local_y())] += u32::from(w.cover().unsigned_abs());
    }
    loads.iter().any(|&load| load > 127)
}

fn carry(kind: &mut Kind) {
    let (part, at_sixteen) = any_part(&mut kind.random);
    let cover = any_cover(&mut kind.random);
    let (number, ours) = library::gpu_carry(&part, cover);
    if is_heavy(&part, cover) {
        kind.note("refused");
        kind.case((number, ours) == (9, cover), || {
            format!("{part:x?} on {cover:?}: expected 9, the library {number} and {ours:?}")
        });
        return;
    }
    // By NonZero only zeros are dropped.
    let record =
        Record { id: 5, rule: 0, func: 0, span: 0, clipped: 0, fill: 0, mode: 0, unchanged: 0, color: [0.0; 4] };
    let rust = caught(|| row::carry(&at_sixteen, Some(sixteen(cover)), &record).unwrap_or([0; 16]));
    kind.note("carried");
    kind.case(number == 0 && rust == Some(sixteen(ours)), || {
        format!("{part:x?} on {cover:?}: the Rust {rust:?}, the library {number} and {ours:?}")
    });
}

fn bits(plane: &[f32]) -> Vec<u32> {
    plane.iter().map(|number| number.to_bits()).collect()
}

fn paint(kind: &mut Kind) {
    let (part, at_sixteen) = any_part(&mut kind.random);
    let random = &mut kind.random;
    let cover = any_cover(random);
    let rule = random.below(2) as u32;
    let len = random.pick(&[64, 64, 64, 64, 63, 70, 0]);
    let before: Vec<f32> = (0..len).map(|i| -1000.0 - i as f32).collect();
    let mut plane = before.clone();
    let number = library::gpu_paint_part(&part, cover, rule, &mut plane);
    let refusal = if len < 64 { Some(1) } else { is_heavy(&part, cover).then_some(9) };
    kind.note(match refusal {
        Some(1) => "refused by 1",
        Some(_) => "refused by 9",
        None => "painted",
    });
    let rust = caught(|| recorder::paint(&at_sixteen, sixteen(cover), RULES[rule as usize]));
    let same = match (refusal, &rust) {
        (Some(refusal), _) => number == refusal && bits(&plane) == bits(&before),
        (None, Some(rust)) => {
            number == 0 && bits(&plane[..64]) == bits(&rust.plane[..64]) && bits(&plane[64..]) == bits(&before[64..])
        }
        (None, None) => false,
    };
    kind.case(same, || format!("{part:x?} on {cover:?}, rule {rule}, plane of {len}: the library {number}"));
}
