//! Colours and the lent layer table.

use reference::plain::{color_of, Record, Rgba, MODES};

use crate::{
    given::{LentTable, LAYER_LIMIT},
    library,
    random::Random,
    scene::{any_color, any_table},
    tally::{Kind, Tally},
};

pub fn compare(tally: &mut Tally) {
    tally.random("Color, ==", colors);
    tally.kind("BlendMode", modes);
    tally.random("opaque", opaque);
    tally.random("layer tables", tables);
}

/// The same colour, one that differs in a bit or in the sign of a zero, or another.
fn colors(kind: &mut Kind) {
    let color = any_bits(&mut kind.random);
    let mut other = color;
    let at = kind.random.below(4);
    match kind.random.below(4) {
        0 => other[at] = -other[at],
        1 => other[at] = f32::from_bits(other[at].to_bits() ^ 1 << kind.random.below(32)),
        2 => other = any_bits(&mut kind.random),
        _ => (),
    }
    let rust = color_of(color) == color_of(other);
    kind.note(if rust { "equal" } else { "different" });
    let ours = library::color_eq(color, other);
    kind.case(ours == rust, || format!("{color:?}, {other:?}: the Rust {rust}, the library {ours}"));
}

/// A colour of the scenes, or any bits.
fn any_bits(random: &mut Random) -> Rgba {
    if random.once_in(2) {
        any_color(random)
    } else {
        [(); 4].map(|()| f32::from_bits(random.word() as u32))
    }
}

/// The number of a blend mode is its place in the Rust's enum.
fn modes(kind: &mut Kind) {
    for (code, mode) in MODES.iter().enumerate() {
        let ours = library::blend_mode(code as u32);
        kind.case(ours == *mode as u32, || format!("{mode:?}: the Rust {}, the library {ours}", *mode as u32));
    }
}

/// Fill 0, blend mode 0, alpha 1.
fn opaque(kind: &mut Kind) {
    let random = &mut kind.random;
    let (fill, mode) = (random.below(4) as u32 / 2, random.below(32) as u32 / 2);
    let mode = if random.once_in(2) { 0 } else { mode };
    let mut color = any_bits(random);
    if random.once_in(2) {
        color[3] = f32::from_bits(1.0f32.to_bits().wrapping_add(random.within(-1..=1) as u32));
    }
    let expected = fill == 0 && mode == 0 && color[3] == 1.0;
    kind.note(if expected { "opaque" } else { "not" });
    let ours = library::is_opaque(fill, mode, color);
    kind.case(ours == expected, || {
        format!("fill {fill}, mode {mode}, {color:?}: expected {expected}, the library {ours}")
    });
}

/// The table as it is lent: eight words and four floats a record.
pub fn lent(records: &[Record]) -> LentTable {
    let words = |r: &Record| [r.id, r.rule, r.func, r.span, r.clipped, r.fill, r.mode, r.unchanged];
    LentTable {
        layers: records.iter().flat_map(words).collect(),
        colors: records.iter().flat_map(|r| r.color).collect(),
        count: records.len(),
    }
}

/// A table's records, as the Rust has them.
pub fn records(table: &LentTable) -> Vec<Record> {
    let one = |i: usize| {
        let [id, rule, func, span, clipped, fill, mode, unchanged] = table.layers[8 * i..8 * i + 8].try_into().unwrap();
        let color = table.colors[4 * i..4 * i + 4].try_into().unwrap();
        Record { id, rule, func, span, clipped, fill, mode, unchanged, color }
    };
    (0..table.count).map(one).collect()
}

/// A table with a word changed, a record twice or out of its place, or lent too short; at times as it was.
pub fn damaged(random: &mut Random, records: &[Record]) -> LentTable {
    let mut records = records.to_vec();
    if random.once_in(6) && records.len() > 1 {
        let i = random.below(records.len() - 1);
        records.swap(i, i + 1);
    }
    if random.once_in(6) && records.len() > 1 {
        let i = random.below(records.len() - 1);
        records[i + 1].id = records[i].id;
    }
    let LentTable { mut layers, mut colors, mut count } = lent(&records);
    if random.once_in(3) && count > 0 {
        let at = random.below(layers.len());
        layers[at] = random.pick(&[0, 1, 2, 3, 15, 16, LAYER_LIMIT, LAYER_LIMIT + 1, u32::MAX]);
    }
    match random.below(12) {
        0 => count += 1,
        1 => count = usize::MAX,
        2 => layers.truncate(layers.len().saturating_sub(1)),
        3 => colors.truncate(colors.len().saturating_sub(1)),
        4 => layers.extend([9; 13]),
        5 => count = random.below(count + 1),
        _ => (),
    }
    LentTable { layers, colors, count }
}

/// Numbers 1 and 4.
fn tables(kind: &mut Kind) {
    let records = any_table(&mut kind.random);
    let table = damaged(&mut kind.random, &records);
    let is_short = table.is_short();
    let is_table = !is_short && table.is_valid();
    kind.note(if is_short {
        "refused by 1"
    } else if is_table {
        "accepted"
    } else {
        "refused by 4"
    });
    let ours = library::judge_table(&table.layers, &table.colors, table.count);
    kind.case(ours == (is_short, is_table), || {
        format!("{table:?}: expected {is_short}, {is_table}, the library {ours:?}")
    });
}
