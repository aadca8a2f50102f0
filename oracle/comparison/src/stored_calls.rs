//! Listings and decidings among the stored answers (W-206), so many of each outcome: lists, carries and decisions are
//! the Rust's, or the second model's where it judges; a refusal's number is the scope's, and all memory is then as it
//! was. Lent columns are 7 each or false, as the crate `compare` lends them.

use reference::plain::{Cached, Record};

use crate::{
    calls::{any_call, damage, deciding_refusal, listing_refusal, worked_row},
    deciding::{judged, marked, put_list},
    given::{LentTable, Memory, Queue, Work, LAYER_LIMIT},
    layers::{damaged, lent, records},
    memory::{decided, listed},
    models::Tables,
    random::Random,
    stored_lines::{bytes, float, Line},
    stored_rows::{any_arrangement, tile_given},
};

/// The seed of these cases.
const SEED: u64 = 2;

/// How many listings are stored: accepted ones, and of each refusal. A list of more than 256 layers (7) is too long.
const LISTINGS: [usize; 10] = [8, 3, 3, 2, 2, 3, 0, 0, 2, 2];

/// How many decidings: of each refusal, and of 8 at 255 or 256 entries; then by decision.
const DECIDINGS: [usize; 13] = [0, 4, 0, 0, 2, 4, 3, 2, 3, 2, 6, 8, 6];

/// Both blocks.
pub fn blocks() -> String {
    let mut random = Random::new(SEED);
    block("LIST", &LISTINGS, || listing(&mut random)) + &block("DECIDE", &DECIDINGS, || deciding(&mut random))
}

/// So many lines of each outcome, in the order in which they come.
fn block(name: &str, counts: &[usize], mut any: impl FnMut() -> Option<(usize, Line)>) -> String {
    let mut left = counts.to_vec();
    let mut text = format!("{name} {:x}\n", counts.iter().sum::<usize>());
    while left.iter().any(|&count| count > 0) {
        let Some((outcome, line)) = any() else { continue };
        if left[outcome] > 0 {
            left[outcome] -= 1;
            text += &(line.text() + "\n");
        }
    }
    text
}

/// A lent table with colours that have codes.
fn coded(table: &LentTable) -> LentTable {
    let codes = [0.0, 0.25, 0.5, 0.75, 1.0, 2.0, f32::INFINITY];
    let code = |&color: &f32| if codes.contains(&color) { color.abs() } else { 0.75 };
    LentTable { colors: table.colors.iter().map(code).collect(), ..table.clone() }
}

/// A table's words, then its colours.
fn table_given(table: &LentTable) -> Vec<u64> {
    let words = table.layers[..8 * table.count].iter().map(|&word| word.into());
    words.chain(table.colors[..4 * table.count].iter().copied().map(float)).collect()
}

/// Columns as they are lent, with the first entries of others.
fn column(ids: usize, entries: &Queue, held: usize) -> Queue {
    let mut lent = Queue { ids: vec![7; ids], covers: vec![7; 4096] };
    let (held_ids, held_covers) = (held.min(entries.ids.len()), (16 * held).min(entries.covers.len()));
    lent.ids[..held_ids].copy_from_slice(&entries.ids[..held_ids]);
    lent.covers[..held_covers].copy_from_slice(&entries.covers[..held_covers]);
    lent
}

/// The first entries: ids, then covers.
fn entries(queue: &Queue, n: usize) -> Vec<u64> {
    queue.ids[..n].iter().map(|&id| id.into()).chain(Line::covers(&queue.covers[..16 * n])).collect()
}

fn flags(flags: &[bool]) -> Vec<u64> {
    flags.iter().map(|&flag| flag.into()).collect()
}

/// A listing of a small tile, at times damaged, with its number.
fn listing(random: &mut Random) -> Option<(usize, Line)> {
    let (mut call, mut memory) = any_call(random);
    let held = memory.state.counts[0];
    if call.row.len() > 14 || call.table.count > 5 || held > 4 {
        return None;
    }
    if random.once_in(2) {
        damage(random, &mut call, &mut memory);
    }
    if call.table.is_short() || call.row.len() > 18 {
        return None;
    }
    lend_listing(&mut call, &mut memory, held);
    let number = listing_refusal(&call, &memory);
    let mut after = memory.clone();
    if number == 0 {
        let tables = Tables::new(&records(&call.table));
        let tile = Work { is_kept: false, ..call.clone() };
        after = listed(&memory, &worked_row(&tile, &memory, &tables).1.worked);
        if !(2..=4).contains(&after.told[2]) {
            return None;
        }
    }
    let given = listing_given(&call, &memory, held);
    Some((number as usize, Line { given, answer: listing_answer(number, &after) }))
}

/// The call and its memory as `compare` lends them: of the columns only the queue's ids or the flags may be too short.
fn lend_listing(call: &mut Work, memory: &mut Memory, held: usize) {
    let ids = if call.queue.ids.len() < 256 { 255 } else { 256 };
    call.queue = column(ids, &call.queue, held);
    call.table = coded(&call.table);
    let empty = Queue { ids: Vec::new(), covers: Vec::new() };
    memory.state.counts = memory.state.counts.map(|count| count.min(4095));
    memory.next = column(256, &empty, 0);
    memory.list = memory.next.clone();
    memory.flags = vec![false; if memory.flags.len() < 512 { 256 } else { 512 }];
    memory.told = [5; 4];
}

fn listing_given(call: &Work, memory: &Memory, held: usize) -> Vec<u64> {
    let mut given: Vec<u64> = memory.state.words.iter().map(|&word| word.into()).collect();
    given.extend(memory.state.counts.iter().map(|&count| count as u64));
    given.push(u64::from(call.tile as u32));
    given.extend([call.table.count, call.row.len(), held, call.queue.ids.len()].map(|count| count as u64));
    given.push((memory.flags.len() < 512).into());
    given.extend(table_given(&call.table));
    given.extend(&call.row);
    given.extend(entries(&call.queue, held));
    given
}

fn listing_answer(number: u32, after: &Memory) -> Vec<u64> {
    let (many, left) = if number == 0 { (after.told[2], after.state.counts[0]) } else { (0, 0) };
    let mut answer = vec![number.into()];
    answer.extend(after.state.words.iter().map(|&word| u64::from(word)));
    answer.extend(after.state.counts.iter().map(|&count| count as u64));
    answer.push(after.told[2] as u64);
    answer.extend(entries(&after.list, many));
    answer.extend(flags(&after.flags[..many]));
    if number == 0 {
        answer.extend(flags(&after.flags[256..256 + many]));
    }
    answer.extend(entries(&after.next, left));
    answer
}

/// What of a deciding's list is stored, and how its columns are lent.
struct Shape {
    held: usize,
    n: usize,
    ids: usize,
    beyond: u32,
    few_flags: bool,
    few_masks: bool,
}

/// A deciding about a list of some layers of an arrangement, at times damaged, with its number; accepted ones by their
/// decision.
fn deciding(random: &mut Random) -> Option<(usize, Line)> {
    let (mut call, mut memory, mut shape) = any_deciding(random);
    if random.once_in(2) {
        for _ in 0..1 + random.below(2) {
            spoil(random, &mut call, &mut memory, &mut shape);
        }
    }
    if call.table.is_short() {
        return None;
    }
    lend_deciding(random, &mut call, &mut memory, &shape);
    let n = shape.n;
    let number = deciding_refusal(&call, n, &memory);
    let (mut after, mut outcome) = (memory.clone(), number as usize);
    if number == 0 {
        let tables = Tables::new(&marked(&records(&call.table), n, &memory));
        after = decided(&memory, &judged(&call, n, &memory, &tables).worked);
        outcome = 10 + after.told[0];
    } else if number == 8 && n > 254 {
        outcome = 9;
    }
    let given = deciding_given(&call, &memory, &shape);
    Some((outcome, Line { given, answer: deciding_answer(number, n, &after) }))
}

/// Some layers of an arrangement, listed. The cached tile, where there is one, kept as many layers, one less or one
/// more.
fn any_deciding(random: &mut Random) -> (Work, Memory, Shape) {
    let (mut call, mut memory) = any_call(random);
    let (_, layers) = any_arrangement(random);
    let listed: Vec<Record> = layers.iter().copied().filter(|_| !random.once_in(5)).collect();
    let n = listed.len();
    call.table = lent(&layers);
    call.clear = [0.25, 0.5, 0.75, 1.0];
    call.previous = random.pick(&[None, Some([0.5; 4]), Some(call.clear), Some(call.clear)]);
    call.is_kept = !random.once_in(3);
    let kept = random.pick(&[n.saturating_sub(1), n, n, n + 1]);
    memory.kept = [random.below(4) as u8, kept as u8, 0, 0, 1, 2, 3, 4];
    put_list(random, &mut memory, &listed);
    (call, memory, Shape { held: n, n, ids: 256, beyond: 100, few_flags: false, few_masks: false })
}

/// The call and its memory as `compare` lends them.
fn lend_deciding(random: &mut Random, call: &mut Work, memory: &mut Memory, shape: &Shape) {
    let Shape { held, ids, beyond, few_flags, few_masks, .. } = *shape;
    call.table = coded(&call.table);
    memory.list = column(ids, &memory.list, held);
    for i in held..ids {
        memory.list.ids[i] = beyond.wrapping_add(i as u32);
    }
    let many = if few_flags { 256 } else { 512 };
    memory.flags = (0..many).map(|i| i % 256 < held && random.once_in(3)).collect();
    memory.shown = vec![false; if few_masks { 255 } else { 256 }];
    (memory.told, memory.bottom) = ([5; 4], [5.0f32.to_bits(); 4]);
}

fn deciding_given(call: &Work, memory: &Memory, shape: &Shape) -> Vec<u64> {
    let Shape { held, n, ids, beyond, few_flags, few_masks } = *shape;
    let mut given: Vec<u64> = [call.table.count, held, n, ids].map(|count| count as u64).to_vec();
    given.extend([u64::from(beyond), few_flags.into(), few_masks.into()]);
    given.extend(tile_given(0, call.is_kept, Cached(memory.kept), call.clear, call.previous));
    given.extend(table_given(&call.table));
    given.extend(entries(&memory.list, held));
    given.extend(memory.flags.chunks(256).flat_map(|half| flags(&half[..held])));
    given
}

fn deciding_answer(number: u32, n: usize, after: &Memory) -> Vec<u64> {
    let masks = if number == 0 { n } else { 0 };
    let mut answer = vec![number.into()];
    answer.extend(bytes(&after.kept));
    answer.extend([after.told[0], after.told[1], after.told[3]].map(|count| count as u64));
    answer.extend(after.bottom.map(|bits| float(f32::from_bits(bits))));
    answer.extend(flags(&after.shown[..masks]));
    answer
}

/// Damages a deciding in one way that some refusal knows.
fn spoil(random: &mut Random, call: &mut Work, memory: &mut Memory, shape: &mut Shape) {
    let held = shape.held;
    let ids = &mut memory.list.ids;
    match random.below(9) {
        0 if held > 1 => ids.swap(0, held - 1),
        1 if held > 1 => ids[1] = ids[0],
        2 if held > 0 => ids[held - 1] = random.pick(&[LAYER_LIMIT, LAYER_LIMIT + 1, u32::MAX, 9]),
        3 => shape.n = random.pick(&[0, 255, 256, 257, held + 1]),
        4 => {
            memory.kept[0] = random.pick(&[3, 4, 5, 255]);
            call.is_kept = !random.once_in(3);
        }
        5 if !call.table.is_short() => call.table = damaged(random, &records(&call.table)),
        6 => shape.ids = 255,
        7 => shape.few_flags = true,
        _ => shape.few_masks = true,
    }
}
