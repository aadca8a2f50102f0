//! Batches that some condition refuses: at their first tile, or at a later one.

use crate::{
    batch_calls::Batch,
    given::{Fields, Work, LAYER_LIMIT},
    layers::{self, records},
    memory::damaged_row,
    random::Random,
    scene::word,
};

/// Why a batch ended that worked a tile, or none, by the number of the reason.
pub const ENDS: [[&str; 3]; 2] = [
    ["nothing asked for", "at the row's end", "no room for a tile"],
    ["ended: all asked for", "ended: the row's end", "ended: no room for a further tile"],
];

/// The same where the next tile would be refused, by the number of that refusal.
pub const LATER: [&str; 10] = [
    "accepted",
    "ended: the next refused by 1",
    "ended: the next refused by 2",
    "ended: the next refused by 3",
    "ended: the next refused by 4",
    "ended: the next refused by 5",
    "ended: the next refused by 6",
    "ended: the next refused by 7",
    "ended: the next refused by 8",
    "ended: the next refused by 9",
];

/// A copy that is damaged in one way, mostly one that refuses the first tile.
pub fn damaged(random: &mut Random, work: &Work, batch: &Batch) -> (Work, Batch) {
    let (mut work, mut batch) = (work.clone(), batch.clone());
    let held = batch.state.counts[0];
    match random.below(13) {
        0 | 1 => shorten(random, &mut batch),
        2 => work.tile = random.pick(&[i32::MIN, -1, work.tile - 1, work.tile + 1, i32::MAX]),
        3 => batch.state.words[random.below(4)] = random.pick(&[0, 1, 2047, 4095, 4096, u32::MAX]),
        4 | 5 => work.row = damaged_row(random, &work.row),
        6 | 7 => work.table = layers::damaged(random, &records(&work.table)),
        8 => batch.state.counts[0] = random.pick(&[257, usize::MAX, held + 1]),
        9 if held > 1 => batch.queues[0].ids[1] = batch.queues[0].ids[0],
        10 if work.is_kept && !batch.kept.is_empty() => batch.kept[0] = random.pick(&[4, 5, 255]),
        _ => crowd(random, 0, &mut work),
    }
    (work, batch)
}

/// One of the two queues one entry too short, or long enough.
fn shorten(random: &mut Random, batch: &mut Batch) {
    let entries = random.pick(&[0, 255, 255, 256]);
    let side = random.below(2);
    if random.once_in(2) {
        batch.queues[side].ids.truncate(entries);
    } else {
        batch.queues[side].covers.truncate(16 * entries + 15);
    }
}

/// Less room than there was: columns cut anywhere.
pub fn narrow(random: &mut Random, batch: &mut Batch) {
    let mut cut = |len: usize| random.below(len + 1);
    let [kept, told, bottoms, planes, painted] =
        [batch.kept.len(), batch.told.len(), batch.bottoms.len(), batch.planes.len(), batch.painted.len()]
            .map(&mut cut);
    match random.below(5) {
        0 => batch.kept.truncate(kept),
        1 => batch.told.truncate(told),
        2 => batch.bottoms.truncate(bottoms),
        3 => batch.planes.truncate(planes),
        _ => batch.painted.truncate(painted),
    }
}

/// One of the tiles after the first, of so many, gets a tag above 3, or too many layers, one that the table lacks, or
/// too much cover.
pub fn later(random: &mut Random, tiles: usize, work: &mut Work, batch: &mut Batch) {
    let at = 1 + random.below(tiles - 1);
    if work.is_kept && random.once_in(3) && 8 * at < batch.kept.len() {
        batch.kept[8 * at] = random.pick(&[4, 7, 128]);
    } else {
        crowd(random, at, work);
    }
}

/// Segments in the batch's tile `at`: of 257 layers, of one that the table lacks, or too heavy ones.
fn crowd(random: &mut Random, at: usize, work: &mut Work) {
    let known = records(&work.table);
    let tile_x = (work.tile + at as i32) as i16;
    let tile_y = work.row.first().map_or(0, |word| (word >> 53) as i16 - 1);
    let one = |layer_id, cover| {
        word(Fields { layer_id, tile_x, tile_y, local_x: 3, local_y: 5, double_area_multiplier: 9, cover })
    };
    match random.below(3) {
        0 => work.row.extend((0..257).map(|layer| one(layer, 1))),
        1 => work.row.push(one(LAYER_LIMIT - 1, 1)),
        _ if known.is_empty() => (),
        _ => work.row.extend([one(random.pick(&known).id, 31); 5]),
    }
    work.row.sort_by_key(|word| word >> 20);
}
