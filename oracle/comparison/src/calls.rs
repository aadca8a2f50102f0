//! Calls of tile work: with any queue, and damaged in each way that a refusal knows; the number that each must be
//! given, and what the models make of an accepted one.

use reference::{
    cpu::RGBA,
    painter::row::Frame,
    plain::{Cached, Carry, Record},
};

use crate::{
    given::{Memory, State, Work, LAYER_LIMIT},
    judge::{self, is_short, tile_x, Tile},
    layers::{damaged, lent, records},
    memory::{any_memory, any_queue, carries, damaged_row, written},
    models::{Judged, Models, Tables},
    random::Random,
    scene::any_scene,
};

/// The number that the scope's table gives for a work.
pub fn refusal(call: &Work, memory: &Memory) -> u32 {
    refusal_of(call, memory, memory.shown.len() < 256, call.is_kept.then_some(memory.kept[0]))
}

/// For a listing, which is lent no mask column and no cached tile.
pub fn listing_refusal(call: &Work, memory: &Memory) -> u32 {
    refusal_of(call, memory, false, None)
}

fn refusal_of(call: &Work, memory: &Memory, is_mask_short: bool, tag: Option<u8>) -> u32 {
    let lent_short = is_mask_short
        || [&call.queue, &memory.next, &memory.list].iter().any(|queue| is_short(queue.ids.len(), queue.covers.len()))
        || memory.flags.len() < 512;
    let queue = if lent_short { Vec::new() } else { carries(&call.queue, memory.state.counts[0].min(256)) };
    let tile = Tile { state: memory.state, tile: call.tile, lent_short, queue: &queue, tag };
    judge::work(&tile, &call.row, &call.table)
}

/// For a deciding about the first n entries of the list that the memory holds.
pub fn deciding_refusal(call: &Work, n: usize, memory: &Memory) -> u32 {
    let Memory { list, flags, shown, kept, .. } = memory;
    let lent_short = is_short(list.ids.len(), list.covers.len()) || flags.len() < 512 || shown.len() < 256;
    let ids = &list.ids[..n.min(list.ids.len())];
    judge::deciding(lent_short, ids, n, call.is_kept.then_some(kept[0]), &call.table)
}

/// The row after a call that no condition refuses, in workbenches that hold the call's queue, and what was made of it.
pub fn worked_row<'t>(call: &Work, memory: &Memory, tables: &'t Tables) -> (Models<'t>, Judged) {
    let queue = carries(&call.queue, memory.state.counts[0]);
    let frame = Frame { clear: call.clear, previous_clear: call.previous, channels: RGBA };
    let (tile_y, tile) = (memory.state.words[0] as usize, call.tile as usize);
    // What lies left of the tile is in the queue.
    let words: Vec<u64> = call.row.iter().copied().filter(|&word| tile_x(word) == i64::from(call.tile)).collect();
    let mut row = Models::open(tile_y, tile, tile + 1, &words, tables);
    row.take_queue(&queue);
    let judged = row.work(tile, &frame, call.is_kept.then_some(Cached(memory.kept)));
    (row, judged)
}

/// A tile of a random row, with any queue that its layers may have.
pub fn any_call(random: &mut Random) -> (Work, Memory) {
    let scene = any_scene(random);
    let picture = random.below(scene.pictures.len());
    let picture = &scene.pictures[picture];
    let tile = scene.from as u32 + random.below(4) as u32;
    let [tile_y, from, to] = [scene.tile_y, scene.from, scene.to.max(tile as usize + 1)].map(|end| end as u32);
    let words = [tile_y, from, to, tile, random.below(2) as u32, random.word() as u32];
    let mut held = Vec::new();
    let is_wound = random.once_in(2);
    for record in &picture.records {
        if random.once_in(2) {
            held.push(any_carry(random, record, is_wound));
        }
    }
    let mut queue = any_queue(random, false);
    written(&mut queue, held.iter().map(|carry| (carry.id, carry.cover)));
    let state = State { words, counts: [held.len(), random.word() as usize] };
    let (tag, count) = (random.below(4) as u8, random.pick(&[0, 1, 2, 3, picture.records.len() as u8]));
    let cached = Cached([tag, count, 0, random.below(2) as u8, 1, 2, 3, 4]);
    let clear = picture.frame.clear;
    let previous = if random.once_in(3) { Some(clear) } else { picture.frame.previous_clear };
    let (row, table, is_kept) = (picture.words.clone(), lent(&picture.records), !random.once_in(4));
    let call = Work { tile: tile as i32, row, table, is_kept, clear, previous, queue };
    let memory = any_memory(random, state, cached);
    (call, memory)
}

/// Covers that are full, empty or nearly so, or any; light enough for some segments. NonZero covers are above 16 only in
/// queues that are wound, so that the Rust judges the others.
pub fn any_carry(random: &mut Random, record: &Record, is_wound: bool) -> Carry {
    let is_wide = is_wound || record.rule == 1;
    let covers: &[i8] = if is_wide { &[0, 16, -16, 32, -32, 48, -48, 8] } else { &[0, 16, 16, -16, 8] };
    let mut cover = [random.pick(covers); 16];
    if random.once_in(4) {
        let most = if is_wide { 64 } else { 16 };
        cover[random.below(16)] = random.within(-most..=most) as i8;
    }
    Carry { id: record.id, cover }
}

/// Damages a call in one way that some refusal knows.
pub fn damage(random: &mut Random, call: &mut Work, memory: &mut Memory) {
    let held = memory.state.counts[0].min(call.queue.ids.len()).min(call.queue.covers.len() / 16);
    match random.below(12) {
        0 => {
            call.tile = random.pick(&[
                i32::MIN,
                -1,
                0,
                call.tile.wrapping_add(1),
                call.tile.wrapping_sub(1),
                call.tile.wrapping_add(65536),
                i32::MAX,
            ])
        }
        1 => memory.state.words[random.below(4)] = random.pick(&[0, 1, 3, 2046, 2047, 4094, 4095, 4096, u32::MAX]),
        2 => call.row = damaged_row(random, &call.row),
        3 if !call.table.is_short() => call.table = damaged(random, &records(&call.table)),
        4 => memory.state.counts[0] = random.pick(&[256, 257, usize::MAX, held + 1]),
        5 if held > 1 => call.queue.ids.swap(0, held - 1),
        6 if held > 1 => call.queue.ids[1] = call.queue.ids[0],
        7 if held > 0 => call.queue.ids[held - 1] = random.pick(&[LAYER_LIMIT, u32::MAX, 9]),
        8 if held > 0 => call.queue.covers[random.below(16 * held)] = random.pick(&[-128, 127, 120, -120, 100]),
        9 => memory.kept[0] = random.pick(&[3, 4, 5, 255]),
        10 => call.queue = any_queue(random, true),
        _ => shorten(random, memory),
    }
}

/// One of the columns to be written, one entry too short or long enough.
fn shorten(random: &mut Random, memory: &mut Memory) {
    let entries = random.pick(&[0, 255, 256]);
    match random.below(6) {
        0 => memory.next.ids.truncate(entries),
        1 => memory.next.covers.truncate(16 * entries + 15),
        2 => memory.list.ids.truncate(entries),
        3 => memory.list.covers.truncate(16 * entries + 15),
        4 => memory.flags.truncate(2 * entries + 1),
        _ => memory.shown.truncate(entries),
    }
}
