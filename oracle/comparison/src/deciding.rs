//! Deciding about a lent list (W-206): the decision, the masks, the skips and the cached bytes, of lists that a listing
//! left against the Rust on the same tile, of any others against the Rust on a tile that lists so; and damaged lists.

use reference::plain::{Record, Worked};

use crate::{
    calls::{any_call, any_carry, deciding_refusal, listing_refusal, worked_row},
    given::{Fields, LentTable, Memory, Queue, State, Work, LAYER_LIMIT},
    layers::{damaged, lent, records},
    memory::{any_queue, carries, decided, input, told, written, REFUSED, REFUSED_WITHOUT},
    models::{Judged, Tables},
    random::Random,
    scene::word,
    tally::{caught, Kind, Tally},
    tiles::{any_crowd, arrangements, one_of_many},
    two_calls,
};

pub fn compare(tally: &mut Tally) {
    tally.random("deciding, lists as listed", |kind| {
        let (mut call, mut memory) = any_call(&mut kind.random);
        any_bytes(&mut kind.random, &mut call, &mut memory);
        as_listed(kind, &call, &memory);
    });
    tally.random("deciding, crowds of layers as listed", |kind| {
        let (call, memory) = any_crowd(&mut kind.random);
        as_listed(kind, &call, &memory);
    });
    tally.kind("deciding, every arrangement of up to two layers", |kind| {
        (0..=2).for_each(|layers| arrangements(kind, layers, as_listed))
    });
    tally.random("deciding, any lists, damaged or not", any_list);
    tally.random("deciding, lists and columns around 256", around_256);
}

/// Often any eight bytes as the cached tile, given or not.
fn any_bytes(random: &mut Random, call: &mut Work, memory: &mut Memory) {
    if random.once_in(2) {
        memory.kept = random.word().to_le_bytes();
        call.is_kept = random.once_in(2);
        if call.is_kept && !random.once_in(4) {
            memory.kept[0] %= 4;
        }
    }
}

/// The list that a listing leaves, decided: what the Rust makes of the same tile.
fn as_listed(kind: &mut Kind, call: &Work, before: &Memory) {
    if listing_refusal(call, before) != 0 {
        kind.note("not listed");
        return;
    }
    let mut memory = before.clone();
    let listing = two_calls::list_tile(call, &mut memory);
    if listing != 0 {
        kind.case(false, || format!("{}: listing {listing}", input(call, before)));
        return;
    }
    let n = memory.told[2];
    let decided = Work { table: otherwise_changed(&mut kind.random, &call.table), ..call.clone() };
    check(kind, &decided, n, &memory, |tables| worked_row(call, before, tables).1);
}

/// A table that says otherwise of some layers whether they are changed: a deciding goes by the list's marks.
fn otherwise_changed(random: &mut Random, table: &LentTable) -> LentTable {
    let mut table = table.clone();
    for i in 0..table.count {
        table.layers[8 * i + 7] ^= u32::from(random.once_in(2));
    }
    table
}

/// The records as the list marks them, for the models, which ask the table whether a layer is changed.
pub fn marked(records: &[Record], n: usize, memory: &Memory) -> Vec<Record> {
    let Memory { list, flags, .. } = memory;
    let mark = |id| list.ids[..n].iter().position(|&listed| listed == id).map(|i| flags[256 + i]);
    let unchanged = |record: &Record| mark(record.id).map_or(record.unchanged, |changed| u32::from(!changed));
    records.iter().map(|record| Record { unchanged: unchanged(record), ..*record }).collect()
}

/// One deciding on both sides; after a refusal every number must be what it was, and the cached bytes where none are
/// given. `judge` asks the models about a tile that lists so.
fn check(kind: &mut Kind, call: &Work, n: usize, before: &Memory, judge: impl FnOnce(&Tables) -> Judged) {
    let number = deciding_refusal(call, n, before);
    kind.note(if call.is_kept { REFUSED } else { REFUSED_WITHOUT }[number as usize]);
    let mut after = before.clone();
    let ours = two_calls::decide_tile(call, n, &mut after);
    if number != 0 {
        kind.case(ours == number && after == *before, || {
            format!("{}: expected {number}, the library {ours}, {}", given(call, n, before), told(&after, before))
        });
        return;
    }
    let tables = Tables::new(&marked(&records(&call.table), n, before));
    let Some(judged) = caught(|| judge(&tables)) else {
        kind.case(false, || format!("{}: the Rust panics", given(call, n, before)));
        return;
    };
    let Worked { list, skipped, decision, cached, .. } = &judged.worked;
    let wanted = decided(before, &judged.worked);
    kind.case(ours == 0 && list.len() == n && after == wanted, || {
        let (input, seen) = (given(call, n, before), told(&after, &wanted));
        format!("{input}: the library {ours}, {seen}; the Rust {list:?}, skipped {skipped}, {decision:?}, {cached:?}")
    });
    if let Some(left_out) = &judged.left_out {
        kind.leave_out(left_out.why, left_out.is_other);
    }
}

/// A call, without what its columns hold past their entries.
fn given(call: &Work, n: usize, memory: &Memory) -> String {
    let Work { table, is_kept, clear, previous, .. } = call;
    let Memory { list, flags, shown, kept, .. } = memory;
    let columns = [list.ids.len(), list.covers.len(), flags.len(), shown.len()];
    let held = carries(list, n.min(list.ids.len()).min(list.covers.len() / 16));
    let flags = [0, 256].map(|at: usize| flags.get(at..at.saturating_add(n)));
    let kept = is_kept.then_some(kept);
    format!(
        "{n} of columns {columns:?}, {held:?}, {flags:?}, {table:?}, kept {kept:?}, clear {clear:?}, \
         before {previous:?}"
    )
}

/// What the models make of a tile whose list is the memory's: an incoming cover for each entry, and where it has
/// segments, one of cover 0.
pub fn judged(call: &Work, n: usize, memory: &Memory, tables: &Tables) -> Judged {
    let Memory { list, flags, .. } = memory;
    let mut queue = Queue { ids: list.ids[..n].to_vec(), covers: list.covers[..16 * n].to_vec() };
    // The absolute value of -128 overflows in the Rust; -96 is full or not where -128 is, by either rule.
    queue.covers.iter_mut().filter(|cover| **cover == -128).for_each(|cover| *cover = -96);
    let fields =
        Fields { layer_id: 0, tile_x: 0, tile_y: 0, local_x: 3, local_y: 4, double_area_multiplier: 5, cover: 0 };
    let with_segments = (0..n).filter(|&i| flags[i]);
    let row = with_segments.map(|i| word(Fields { layer_id: list.ids[i], ..fields })).collect();
    let state = State { words: [0, 0, 1, 0, 0, 0], counts: [n, 0] };
    let tile = Work { tile: 0, row, queue, ..call.clone() };
    worked_row(&tile, &Memory { state, ..memory.clone() }, tables).1
}

/// A list of layers of the table, with covers and flags of any kind.
pub fn put_list(random: &mut Random, memory: &mut Memory, records: &[Record]) {
    let is_wound = random.once_in(2);
    let mut entries: Vec<(u32, [i8; 16])> = Vec::new();
    for record in records {
        let mut cover = any_carry(random, record, is_wound).cover;
        if is_wound && random.once_in(6) {
            cover[random.below(16)] = random.pick(&[-128, -127, 127, -17, 17, 15]);
        }
        entries.push((record.id, cover));
    }
    memory.list = any_queue(random, false);
    written(&mut memory.list, entries.into_iter());
}

/// Some layers of a table, at times damaged in one or two ways that a refusal knows.
fn any_list(kind: &mut Kind) {
    let random = &mut kind.random;
    let (mut call, mut memory) = any_call(random);
    any_bytes(random, &mut call, &mut memory);
    let listed: Vec<Record> = records(&call.table).into_iter().filter(|_| !random.once_in(4)).collect();
    put_list(random, &mut memory, &listed);
    let mut n = listed.len();
    if random.once_in(2) {
        for _ in 0..1 + random.below(2) {
            damage(random, &mut call, &mut n, &mut memory);
        }
    }
    check(kind, &call, n, &memory, |tables| judged(&call, n, &memory, tables));
}

fn damage(random: &mut Random, call: &mut Work, n: &mut usize, memory: &mut Memory) {
    let held = (*n).min(memory.list.ids.len());
    let ids = &mut memory.list.ids;
    match random.below(8) {
        0 if held > 1 => ids.swap(0, held - 1),
        1 if held > 1 => ids[1] = ids[0],
        2 if held > 0 => ids[held - 1] = random.pick(&[LAYER_LIMIT, LAYER_LIMIT + 1, u32::MAX, 9]),
        3 => *n = random.pick(&[0, 1, 255, 256, 257, usize::MAX, held + 1]),
        4 => {
            memory.kept[0] = random.pick(&[3, 4, 5, 255]);
            call.is_kept = !random.once_in(3);
        }
        5 if !call.table.is_short() => call.table = damaged(random, &records(&call.table)),
        6 if call.table.count > 0 => call.table.count -= 1,
        _ => shorten(random, memory),
    }
}

/// One of the list's four columns, one entry too short or long enough.
fn shorten(random: &mut Random, memory: &mut Memory) {
    let entries = random.pick(&[0, 255, 256]);
    match random.below(4) {
        0 => memory.list.ids.truncate(entries),
        1 => memory.list.covers.truncate(16 * entries + 15),
        2 => memory.flags.truncate(2 * entries + 1),
        _ => memory.shown.truncate(entries),
    }
}

/// 254 to 258 entries in columns of 255 to 260, at times with a place out of order or a layer that the table lacks.
fn around_256(kind: &mut Kind) {
    let random = &mut kind.random;
    let (mut call, mut memory) = any_call(random);
    any_bytes(random, &mut call, &mut memory);
    let records: Vec<Record> = (0..260).map(one_of_many).collect();
    call.table = lent(&records);
    put_list(random, &mut memory, &records[..256]);
    let n = random.pick(&[254, 255, 256, 256, 257, 258]);
    let lens = [(); 4].map(|()| if random.once_in(12) { 255 } else { 256 + random.below(5) });
    memory.list.ids = (0..lens[0] as u32).collect();
    memory.list.covers.resize(16 * lens[1], 16);
    let mut flags = |len| (0..len).map(|_| random.once_in(2)).collect();
    memory.flags = flags(2 * lens[2]);
    memory.shown = flags(lens[3]);
    around_the_end(random, &mut call.table, &mut memory.list.ids);
    check(kind, &call, n, &memory, |tables| judged(&call, n, &memory, tables));
}

/// At times the ids at places 253 to 257 are not in order, or the table has fewer layers than the list.
fn around_the_end(random: &mut Random, table: &mut LentTable, ids: &mut [u32]) {
    let at = (253 + random.below(5)).min(ids.len() - 1);
    match random.below(6) {
        0 => ids[at] = ids[at - 1],
        1 => ids[at] = 7,
        2 => ids.swap(at, at - 1),
        3 => table.count = 253 + random.below(5),
        _ => (),
    }
}
