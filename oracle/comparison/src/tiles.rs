//! Tile work, call by call: any memory and any queue, damaged in each way that a refusal knows, crowds of layers, and
//! every arrangement of up to three layers.

use reference::plain::Record;

use crate::{
    arrangements::{arrangement, count},
    calls::{any_call, any_carry, damage, refusal, worked_row},
    given::{Fields, Memory, Queue, State, Work},
    layers::{lent, records},
    library,
    memory::{any_queue, brief, expected, input, told, written, REFUSED, REFUSED_WITHOUT},
    models::Tables,
    paintings::{paint_all, paint_left_out},
    random::Random,
    scene::word,
    tally::{caught, Kind, Tally},
};

pub fn compare(tally: &mut Tally) {
    tally.random("drive_tile_painting, single calls", single);
    tally.random("drive_tile_painting, any cached bytes, given or not", any_bytes);
    tally.random("drive_tile_painting, crowds of layers", |kind| {
        let (call, memory) = any_crowd(&mut kind.random);
        check(kind, &call, &memory);
    });
    tally.kind("drive_tile_painting, every arrangement of up to three layers", |kind| {
        (0..=3).for_each(|layers| arrangements(kind, layers, check))
    });
}

/// One call on both sides; after a refusal every number must be what it was, and the cached bytes where none are given.
pub fn check(kind: &mut Kind, call: &Work, before: &Memory) {
    let number = refusal(call, before);
    kind.note(if call.is_kept { REFUSED } else { REFUSED_WITHOUT }[number as usize]);
    let mut after = before.clone();
    let ours = library::work_tile(call, &mut after);
    if number != 0 {
        kind.case(ours == number && after == *before, || {
            format!("{}: expected {number}, the library {ours}, {}", input(call, before), told(&after, before))
        });
        return;
    }
    let tables = Tables::new(&records(&call.table));
    let Some((_, judged)) = caught(|| worked_row(call, before, &tables)) else {
        kind.case(false, || format!("{}: the Rust panics", input(call, before)));
        return;
    };
    let worked = &judged.worked;
    let wanted = expected(before, worked);
    kind.case(ours == 0 && after == wanted, || {
        format!("{}: the library {ours}, {}; the Rust {}", input(call, before), told(&after, &wanted), brief(worked))
    });
    paint_all(kind, call, wanted.state, &worked.painted);
    paint_left_out(kind, call, wanted.state, &judged);
}

fn single(kind: &mut Kind) {
    let (mut call, mut memory) = any_call(&mut kind.random);
    if kind.random.once_in(2) {
        for _ in 0..1 + kind.random.below(2) {
            damage(&mut kind.random, &mut call, &mut memory);
        }
    }
    check(kind, &call, &memory);
}

/// Any eight bytes as the cached tile. Where it is not given, no tag is refused and all bytes stay.
fn any_bytes(kind: &mut Kind) {
    let random = &mut kind.random;
    let (mut call, mut memory) = any_call(random);
    memory.kept = random.word().to_le_bytes();
    call.is_kept = random.once_in(2);
    if call.is_kept && !random.once_in(4) {
        memory.kept[0] %= 4;
    }
    if random.once_in(2) {
        damage(random, &mut call, &mut memory);
    }
    check(kind, &call, &memory);
}

/// Both rules, clips, clipped draws and draws; some are unchanged.
pub fn one_of_many(id: u32) -> Record {
    let [func, clipped] = [id.is_multiple_of(7), id.is_multiple_of(5)].map(u32::from);
    let color = [0.5, 0.0, 0.0, 1.0];
    Record { id, rule: id % 2, func, span: 3, clipped, fill: 0, mode: 0, unchanged: id % 3 % 2, color }
}

/// About 256 layers: some carried, some with a segment, some with both. At times the last is missing in the table.
pub fn any_crowd(random: &mut Random) -> (Work, Memory) {
    let layers = 253 + random.below(7) as u32;
    let (_, template) = any_call(random);
    let records: Vec<Record> = (0..layers).map(one_of_many).collect();
    let (share, is_wound) = (random.pick(&[2, 5, 40]), random.once_in(2));
    let (mut held, mut row) = (Vec::new(), Vec::new());
    for id in 0..layers {
        let is_held = random.below(share) == 0 && held.len() < 256;
        if is_held {
            held.push(any_carry(random, &records[id as usize], is_wound));
        }
        if !is_held || random.once_in(2) {
            let (local_x, local_y, double_area_multiplier) = (2, random.below(16) as u8, 7);
            let (layer_id, tile_x, tile_y, cover) = (id, 0, 0, 3);
            row.push(word(Fields { layer_id, tile_x, tile_y, local_x, local_y, double_area_multiplier, cover }));
        }
    }
    let mut queue: Queue = any_queue(random, false);
    written(&mut queue, held.iter().map(|carry| (carry.id, carry.cover)));
    let state = State { words: [0, 0, 1, 0, 0, 0], counts: [held.len(), 0] };
    let known = if random.once_in(4) { &records[..records.len() - 1] } else { &records[..] };
    let is_kept = random.once_in(2);
    let call = Work { tile: 0, row, table: lent(known), is_kept, clear: [0.0; 4], previous: None, queue };
    (call, Memory { state, ..template })
}

/// All arrangements of so many layers, each with no cached tile, one that kept the same count, or a higher one, and
/// with another clear colour.
pub fn arrangements(kind: &mut Kind, layers: u32, check: fn(&mut Kind, &Work, &Memory)) {
    let (_, base) = any_call(&mut kind.random);
    let clear = [0.0, 0.25, 0.5, 1.0];
    let mut queue = any_queue(&mut kind.random, false);
    for number in 0..count(layers) {
        let (row, records) = arrangement(layers, number);
        let all_unchanged = records.iter().all(|record| record.unchanged == 1);
        let none_unchanged = records.iter().all(|record| record.unchanged == 0);
        let table = lent(&records);
        let mut state = State { words: [0; 6], counts: [0; 2] };
        let opened = library::open_tile_row(0, 0, 1, &row, &table, &mut queue, &mut state);
        assert_eq!(opened, 0);
        let mut call = Work { tile: 0, row, table, is_kept: false, clear, previous: Some(clear), queue: queue.clone() };
        let mut memory = Memory { state, kept: [2, layers as u8, 0, 0, 0, 0, 0, 0], ..base.clone() };
        // What is unchanged plays no part where nothing was kept, or more than is listed.
        if none_unchanged {
            check(kind, &call, &memory);
        }
        call.is_kept = true;
        if all_unchanged {
            check(kind, &call, &memory);
        }
        call.previous = None;
        check(kind, &call, &memory);
        if none_unchanged || all_unchanged {
            memory.kept[1] += 1;
            check(kind, &call, &memory);
        }
    }
}
