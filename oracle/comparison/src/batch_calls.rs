//! A batch of tiles in one call, and the memory that it is lent.

use crate::{
    exports,
    given::{Queue, State, Work},
};

/// Numbers of a tile: its decision, how many shown layers lie before those to mix, how many layers are listed, skipped,
/// shown, and how many carries it hands on.
pub const TOLD: usize = 6;

/// All that a batch may write: its state, the two queues, for each tile the bytes of its cached tile, six numbers and a
/// colour, for each plane 256 coverages and two words, and the numbers that it is told by.
#[derive(Clone, Debug)]
pub struct Batch {
    pub state: State,
    pub queues: [Queue; 2],
    pub kept: Vec<u8>,
    pub told: Vec<usize>,
    pub bottoms: Vec<f32>,
    pub planes: Vec<f32>,
    pub painted: Vec<u32>,
    /// Tiles worked, planes used, which queue holds the carries, why it ended, and the number of the next tile's
    /// refusal.
    pub done: [usize; 5],
}

/// Why a batch ended, by its numbers.
pub const ASKED: usize = 0;
pub const ROW_END: usize = 1;
pub const NO_ROOM: usize = 2;
pub const NEXT_REFUSED: usize = 3;

impl Batch {
    /// How many planes there is room for.
    pub fn planes(&self) -> usize {
        (self.planes.len() / 256).min(self.painted.len() / 2)
    }

    /// Whether a tile may be worked behind so many tiles that used so many planes.
    pub fn has_room(&self, work: &Work, worked: usize, used: usize) -> bool {
        (!work.is_kept || worked < self.kept.len() / 8)
            && worked < self.told.len() / TOLD
            && worked < self.bottoms.len() / 4
            && used + needed(work) <= self.planes()
    }

    /// Which parts are other than in another one.
    pub fn unlike(&self, other: &Self) -> String {
        let bits = |numbers: &[f32]| numbers.iter().map(|number| number.to_bits()).collect::<Vec<_>>();
        let parts = [
            ("state", self.state == other.state),
            ("queues", self.queues == other.queues),
            ("kept", self.kept == other.kept),
            ("told", self.told == other.told),
            ("bottoms", bits(&self.bottoms) == bits(&other.bottoms)),
            ("planes", bits(&self.planes) == bits(&other.planes)),
            ("painted", self.painted == other.painted),
            ("done", self.done == other.done),
        ];
        parts.iter().filter(|(_, same)| !same).map(|(name, _)| format!("another {name} ")).collect()
    }
}

impl PartialEq for Batch {
    fn eq(&self, other: &Self) -> bool {
        self.unlike(other).is_empty()
    }
}

/// How many planes a tile can need: as many as it can list layers.
pub fn needed(work: &Work) -> usize {
    work.table.count.min(256)
}

/// The number of the refusal; the batch holds what the call left. Of the work only the queue is not read.
pub fn work_tiles(work: &Work, tiles: usize, batch: &mut Batch) -> u32 {
    let Work { tile, row, table, is_kept, clear, previous, .. } = work;
    let Batch { state, queues: [a, b], kept, told, bottoms, planes, painted, done } = batch;
    unsafe {
        exports::ffi_work_tiles(
            &mut state.words,
            &mut state.counts,
            *tile,
            tiles,
            row.as_ptr(),
            row.len(),
            table.layers.as_ptr(),
            table.layers.len(),
            table.colors.as_ptr(),
            table.colors.len(),
            table.count,
            *is_kept,
            kept.as_mut_ptr(),
            kept.len(),
            clear,
            previous.is_some(),
            &previous.unwrap_or([7.0; 4]),
            a.ids.as_mut_ptr(),
            a.ids.len(),
            a.covers.as_mut_ptr(),
            a.covers.len(),
            b.ids.as_mut_ptr(),
            b.ids.len(),
            b.covers.as_mut_ptr(),
            b.covers.len(),
            told.as_mut_ptr(),
            told.len(),
            bottoms.as_mut_ptr(),
            bottoms.len(),
            planes.as_mut_ptr(),
            planes.len(),
            painted.as_mut_ptr(),
            painted.len(),
            done,
        )
    }
}
