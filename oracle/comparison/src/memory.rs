//! The memory that calls are lent: filled with numbers of its own, and what a call must leave in it.

use reference::plain::{Cached, Carry, Decision, Worked};

use crate::{
    given::{Memory, Queue, State, Work},
    random::Random,
};

/// Outcomes by their numbers.
pub const REFUSED: [&str; 10] = [
    "accepted",
    "refused by 1",
    "refused by 2",
    "refused by 3",
    "refused by 4",
    "refused by 5",
    "refused by 6",
    "refused by 7",
    "refused by 8",
    "refused by 9",
];

/// The same where no cached tile is given.
pub const REFUSED_WITHOUT: [&str; 10] = [
    "accepted, no cached tile",
    "refused by 1, no cached tile",
    "refused by 2, no cached tile",
    "refused by 3, no cached tile",
    "refused by 4, no cached tile",
    "refused by 5, no cached tile",
    "refused by 6, no cached tile",
    "refused by 7, no cached tile",
    "refused by 8, no cached tile",
    "refused by 9, no cached tile",
];

/// Lent columns, each number another than what belongs there. Of `len` entries, at times one too few.
pub fn any_queue(random: &mut Random, may_be_short: bool) -> Queue {
    let len = if random.once_in(4) { 256 + random.below(5) } else { 256 };
    let short = may_be_short && random.once_in(3);
    let (ids, covers) = if !short {
        (len, 16 * len + random.below(16))
    } else {
        random.pick(&[(255, 4096), (256, 4095), (0, 0), (300, 15), (3, 9999)])
    };
    Queue {
        ids: (0..ids).map(|_| random.word() as u32).collect(),
        covers: (0..covers).map(|_| random.word() as i8).collect(),
    }
}

pub fn any_state(random: &mut Random) -> State {
    State { words: [(); 6].map(|()| random.word() as u32), counts: [(); 2].map(|()| random.word() as usize) }
}

/// The columns that carries leave: theirs in front, and what there was behind them.
pub fn written(queue: &mut Queue, carries: impl Iterator<Item = (u32, [i8; 16])>) {
    for (i, (id, cover)) in carries.enumerate() {
        queue.ids[i] = id;
        queue.covers[16 * i..16 * i + 16].copy_from_slice(&cover);
    }
}

/// A row that is damaged at times: words out of order, of another row, or too heavy.
pub fn damaged_row(random: &mut Random, words: &[u64]) -> Vec<u64> {
    let mut row = words.to_vec();
    if row.is_empty() {
        return row;
    }
    let at = random.below(row.len());
    match random.below(3) {
        0 => row[at] ^= 1 << random.below(64),
        1 => {
            let other = random.below(row.len());
            row.swap(at, other);
        }
        _ => {
            let heavy = row[at] & !63 | 31;
            let more = random.pick(&[1, 2, 3, 4, 5]);
            row.splice(at..at, (0..more).map(|_| heavy));
        }
    }
    row
}

/// All that tile work may write.
pub fn any_memory(random: &mut Random, state: State, cached: Cached) -> Memory {
    let flags = |random: &mut Random, least: usize| -> Vec<bool> {
        (0..least + random.below(4)).map(|_| random.once_in(2)).collect()
    };
    Memory {
        state,
        kept: cached.0,
        next: any_queue(random, false),
        list: any_queue(random, false),
        flags: flags(random, 512),
        shown: flags(random, 256),
        told: [(); 4].map(|()| random.word() as usize),
        bottom: [(); 4].map(|()| random.word() as u32),
    }
}

/// What the memory is after a tile that the Rust works so.
pub fn expected(before: &Memory, worked: &Worked) -> Memory {
    decided(&listed(before, worked), worked)
}

/// After its listing: the list without masks, the carries, and the state past the tile.
pub fn listed(before: &Memory, worked: &Worked) -> Memory {
    let mut after = before.clone();
    let [tile_y, from, to, next, ..] = before.state.words;
    after.state =
        State { words: [tile_y, from, to, next + 1, 0, 0], counts: [worked.queue.len(), before.state.counts[0]] };
    written(&mut after.next, worked.queue.iter().map(|carry| (carry.id, carry.cover)));
    written(&mut after.list, worked.list.iter().map(|entry| (entry.id, entry.cover)));
    for (i, entry) in worked.list.iter().enumerate() {
        after.flags[i] = entry.has_segments;
        after.flags[256 + i] = entry.changed;
    }
    after.told[2] = worked.list.len();
    after
}

/// After deciding about its list: the cached tile, the masks, the decision and the skips.
pub fn decided(before: &Memory, worked: &Worked) -> Memory {
    let mut after = before.clone();
    if let Some((kept, _)) = worked.cached {
        after.kept = kept.0;
    }
    for (i, entry) in worked.list.iter().enumerate() {
        after.shown[i] = entry.shown;
    }
    let (decision, first) = match worked.decision {
        Decision::None => (0, 0),
        Decision::Solid { bottom, before, .. } => {
            after.bottom = bottom.map(f32::to_bits);
            (1, before)
        }
        Decision::Paint => (2, 0),
    };
    after.told = [decision, first, before.told[2], worked.skipped];
    after
}

/// Where two memories differ.
pub fn told(ours: &Memory, wanted: &Memory) -> String {
    let mut parts = Vec::new();
    if ours.state != wanted.state {
        parts.push(format!("state {:?}, not {:?}", ours.state, wanted.state));
    }
    if ours.kept != wanted.kept {
        parts.push(format!("kept {:?}, not {:?}", ours.kept, wanted.kept));
    }
    if ours.told != wanted.told || ours.bottom != wanted.bottom {
        parts.push(format!("told {:?} {:x?}, not {:?} {:x?}", ours.told, ours.bottom, wanted.told, wanted.bottom));
    }
    for (name, same) in [
        ("queue", ours.next == wanted.next),
        ("list", ours.list == wanted.list),
        ("flags", ours.flags == wanted.flags),
        ("shown", ours.shown == wanted.shown),
    ] {
        if !same {
            parts.push(format!("another {name}"));
        }
    }
    parts.join("; ")
}

/// What a lent queue of `n` carries holds.
pub fn carries(queue: &Queue, n: usize) -> Vec<Carry> {
    (0..n).map(|i| Carry { id: queue.ids[i], cover: queue.covers[16 * i..16 * i + 16].try_into().unwrap() }).collect()
}

/// A call, without what its columns hold past their entries.
pub fn input(call: &Work, memory: &Memory) -> String {
    let Work { tile, row, table, is_kept, clear, previous, queue } = call;
    let held = carries(queue, memory.state.counts[0].min(queue.ids.len()).min(queue.covers.len() / 16));
    let kept = is_kept.then_some(memory.kept);
    format!(
        "tile {tile}, {:?}, row {row:x?}, {table:?}, kept {kept:?}, clear {clear:?}, before {previous:?}, {held:?}",
        memory.state
    )
}

pub fn brief(worked: &Worked) -> String {
    let Worked { list, skipped, decision, cached, queue, .. } = worked;
    format!("{list:?}, skipped {skipped}, {decision:?}, {cached:?}, {queue:?}")
}
