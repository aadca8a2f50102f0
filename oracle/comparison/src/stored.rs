//! The Rust's answers, and the second model's where it judges, as text, for the crate `compare`, which says the form of
//! each kind: a block of a kind is its name with how many cases, then a line for each. Numbers are hexadecimal; signed
//! ones stand by their bits, floats by their multiple of 1/512 or a code.

use std::fmt::Write;

use reference::{
    cpu,
    painter::{self, recorder, row},
    pixel_segment,
    plain::{Record, RULES},
};

use crate::{
    cached::{any_color, any_count, any_tile},
    covers::{any_cover, any_judged_cover, any_part, expected, is_heavy},
    given::{Fields, Key},
    judge,
    layers::{damaged, lent},
    memory::damaged_row,
    random::Random,
    stored_calls, stored_kept,
    stored_lines::{bytes, float, Line},
    stored_rows::{self, opened, row_given, small_scene},
    words::{any_fields, any_row, any_word, layer, near_range, rust_pack, segment, tile, Segment},
};

/// The seed of the stored cases.
const SEED: u64 = 1;

/// How many askings whether a count may stay are stored.
const ASKINGS: usize = 60;

/// All blocks, in the order in which the program reads them.
pub fn answers() -> String {
    let mut text = String::new();
    let mut random = Random::new(SEED);
    let mut block = |name: &str, count: usize, line: fn(&mut Random) -> Line| {
        writeln!(text, "{name} {count:x}").unwrap();
        for _ in 0..count {
            writeln!(text, "{}", line(&mut random).text()).unwrap();
        }
    };
    block("PACK", 150, pack);
    block("FIELDS", 150, fields);
    block("ORDER", 100, order);
    block("ASCENT", 60, ascent);
    block("SEARCH", 200, search);
    block("COVER", 100, cover);
    block("CARRY", 100, carry);
    block("PAINT", 40, paint);
    block("COUNT", 100, count);
    block("COLOR", 100, color);
    block("SETTLE", 100, settle);
    block("OPEN", 60, open);
    let rows = stored_rows::rows(&mut random);
    writeln!(text, "ROW {:x}", rows.len()).unwrap();
    for row in rows {
        writeln!(text, "{row}").unwrap();
    }
    text += &stored_calls::blocks();
    let mut random = Random::new(SEED);
    writeln!(text, "STAYS {ASKINGS:x}").unwrap();
    (0..ASKINGS).for_each(|_| writeln!(text, "{}", stored_kept::asking(&mut random).text()).unwrap());
    let histories = stored_kept::lines(&mut random);
    writeln!(text, "HISTORY {:x}", histories.len()).unwrap();
    histories.iter().for_each(|history| writeln!(text, "{history}").unwrap());
    text
}

fn pack(random: &mut Random) -> Line {
    let fields = near_range(any_fields(random));
    let Fields { layer_id, tile_x, tile_y, local_x, local_y, double_area_multiplier, cover } = fields;
    let bytes = [local_x, local_y, double_area_multiplier, cover as u8].map(u64::from);
    let given = [vec![layer_id.into(), (tile_x as u16).into(), (tile_y as u16).into()], bytes.to_vec()].concat();
    let answer = if fields.are_in_range() { vec![0, rust_pack(fields).unwrap()] } else { vec![11, 5] };
    Line { given, answer }
}

fn fields(random: &mut Random) -> Line {
    let word = any_word(random);
    let w = segment(word);
    let answer = vec![
        w.layer_id().into(),
        (w.tile_x() as u16).into(),
        (w.tile_y() as u16).into(),
        w.local_x().into(),
        w.local_y().into(),
        pixel_segment::double_area_multiplier(w).into(),
        (w.double_area() as u16).into(),
        (w.cover() as u8).into(),
    ];
    Line { given: vec![word], answer }
}

fn order(random: &mut Random) -> Line {
    let word = any_word(random);
    let other = if random.once_in(2) { word ^ (1 << random.below(64)) } else { any_word(random) };
    Line { given: vec![word, other], answer: vec![(segment(word).cmp(&segment(other)) as i8 + 1) as u64] }
}

/// A row that is short enough to be stored.
fn short_row(random: &mut Random) -> Vec<u64> {
    let mut row = any_row(random);
    row.truncate(16);
    row
}

fn ascent(random: &mut Random) -> Line {
    let mut row = short_row(random);
    if random.once_in(2) {
        row.iter_mut().for_each(|word| *word = *word & !(0x7FF << 53) | 1 << 53);
    }
    let stored = random.below(3) as u64;
    let ascends = row.windows(2).all(|pair| segment(pair[0]) <= segment(pair[1]));
    let in_row = row.iter().all(|&word| i64::from(segment(word).tile_y()) + 1 == stored as i64);
    let given = [vec![stored, row.len() as u64], row].concat();
    Line { given, answer: vec![ascends.into(), (ascends && in_row).into()] }
}

fn search(random: &mut Random) -> Line {
    let words = short_row(random);
    let near = segment(if words.is_empty() { random.word() } else { random.pick(&words) });
    let segments: Vec<Segment> = words.iter().map(|&word| segment(word)).collect();
    let key = match random.below(5) {
        0 => Key::TileY(tile(random, near.tile_y())),
        1 => Key::TileX(tile(random, near.tile_x())),
        2 => Key::LayerId(layer(random, near.layer_id())),
        3 => Key::TileXAtLeast(tile(random, near.tile_x()), random.once_in(2)),
        _ => Key::TileYNotNegative(random.once_in(2)),
    };
    let (found, code, value, wanted) = match key {
        Key::TileY(y) => (cpu::search_last_by_key(&segments, y, |s| s.tile_y()), 0, (y as u16).into(), false),
        Key::TileX(x) => (cpu::search_last_by_key(&segments, x, |s| s.tile_x()), 1, (x as u16).into(), false),
        Key::LayerId(id) => (cpu::search_last_by_key(&segments, id, |s| s.layer_id()), 2, id.into(), false),
        Key::TileXAtLeast(x, wanted) => {
            (cpu::search_last_by_key(&segments, wanted, |s| s.tile_x() >= x), 3, (x as u16).into(), wanted)
        }
        Key::TileYNotNegative(wanted) => {
            (cpu::search_last_by_key(&segments, wanted, |s| s.tile_y() >= 0), 4, 0, wanted)
        }
        Key::LayerIdAtLeast(..) => unreachable!("no key of the painter at 16"),
    };
    let given = [vec![code, value, wanted.into(), words.len() as u64], words].concat();
    let place = found.unwrap_or_else(|place| place);
    Line { given, answer: vec![found.is_ok().into(), place as u64] }
}

fn cover(random: &mut Random) -> Line {
    let cover = any_judged_cover(random);
    Line { given: Line::covers(&cover).collect(), answer: expected(cover).map(u64::from).to_vec() }
}

/// A part and an incoming cover, at times too heavy.
fn any_weight(random: &mut Random) -> (Vec<u64>, [i8; 16]) {
    let mut part = any_part(random, 5);
    part.truncate(12);
    let cover = if random.once_in(3) { [0; 16] } else { any_cover(random).map(|byte| byte / 2) };
    (part, cover)
}

/// What is handed on, dropped or not: the rule under which it is not empty tells it, and an empty one is zeros by
/// NonZero.
fn carry(random: &mut Random) -> Line {
    let (part, cover) = any_weight(random);
    let given = [Line::covers(&cover).collect(), vec![part.len() as u64], part.clone()].concat();
    if is_heavy(&part, cover) {
        return Line { given, answer: [vec![9], Line::covers(&cover).collect()].concat() };
    }
    let record =
        Record { id: 5, rule: 0, func: 0, span: 0, clipped: 0, fill: 0, mode: 0, unchanged: 0, color: [0.0; 4] };
    let after = row::carry(&part, Some(cover), &record).unwrap_or([0; 16]);
    Line { given, answer: [vec![0], Line::covers(&after).collect()].concat() }
}

fn paint(random: &mut Random) -> Line {
    let (part, cover) = any_weight(random);
    let rule = random.below(2);
    let given = [vec![rule as u64], Line::covers(&cover).collect(), vec![part.len() as u64], part.clone()].concat();
    let (number, mark, plane) = if is_heavy(&part, cover) {
        (9, 5, [2.0; 256])
    } else {
        let painted = recorder::paint(&part, cover, RULES[rule]);
        (0, painted.mark, painted.plane)
    };
    let answer = [vec![number, mark.into(), mark.count_ones().into()], plane.map(float).to_vec()].concat();
    Line { given, answer }
}

fn count(random: &mut Random) -> Line {
    let (before, count) = (any_tile(random), any_count(random));
    let tile = painter::tile_of(before);
    let previous = tile.update_layer_count(count);
    let given = [bytes(&before.0), vec![count.is_some().into(), count.unwrap_or(9).into()]].concat();
    let answer =
        [vec![previous.is_some().into(), previous.unwrap_or(5).into()], bytes(&painter::cached_of(&tile).0)].concat();
    Line { given, answer }
}

fn color(random: &mut Random) -> Line {
    let (before, color) = (any_tile(random), any_color(random));
    let tile = painter::tile_of(before);
    let previous = tile.update_solid_color(color);
    let given = [bytes(&before.0), vec![color.is_some().into()], bytes(&color.unwrap_or([9; 4]))].concat();
    let answer =
        [vec![previous.is_some().into()], bytes(&previous.unwrap_or([5; 4])), bytes(&painter::cached_of(&tile).0)]
            .concat();
    Line { given, answer }
}

fn settle(random: &mut Random) -> Line {
    let shade = [(); 4].map(|()| random.below(5) as f32 / 4.0);
    let display = painter::display_bytes(shade);
    let mut cached = any_tile(random);
    if random.once_in(2) {
        cached.0[4..].copy_from_slice(&display);
    }
    let is_given = !random.once_in(5);
    let (number, is_written, after) = if is_given && cached.0[0] > 3 {
        (6, false, cached)
    } else {
        let (_, is_written, after) = painter::settle(is_given.then_some(cached), shade);
        (0, is_written, after.unwrap_or(cached))
    };
    let given = [vec![is_given.into()], bytes(&cached.0), bytes(&display)].concat();
    Line { given, answer: [vec![number, is_written.into()], bytes(&after.0)].concat() }
}

fn open(random: &mut Random) -> Line {
    let scene = small_scene(random);
    let picture = &scene.pictures[0];
    let (mut ends, mut row, mut table) =
        ([scene.tile_y as i32, scene.from as i32, scene.to as i32], picture.words.clone(), lent(&picture.records));
    match random.below(8) {
        0 => ends[random.below(3)] = random.pick(&[-1, 0, 5, 2046, 2047, 4095, 4096, i32::MIN, i32::MAX]),
        1 | 2 => row = damaged_row(random, &row),
        3 => table = damaged(random, &picture.records),
        _ => (),
    }
    if table.is_short() {
        table = lent(&picture.records);
    }
    let [tile_y, from, to] = ends;
    let number = judge::opening(tile_y, from, to, &row, &table, false);
    let answer = if number == 0 { opened(ends, &row) } else { [vec![number.into()], vec![5; 8]].concat() };
    // No tile follows.
    Line { given: row_given(ends, &table, &row), answer: [answer, vec![0]].concat() }
}
