//! The table of refusals ('Turned down') in the scope's words, beside the Rust, which has none: the lowest number that
//! applies, 0 where none does.

use std::collections::BTreeMap;

use reference::plain::Carry;

use crate::{
    batch_calls::Batch,
    given::{LentTable, State, Work, LAYER_LIMIT},
    memory::carries,
};

impl LentTable {
    pub fn is_short(&self) -> bool {
        self.layers.len() / 8 < self.count || self.colors.len() / 4 < self.count
    }

    /// Ids strictly ascending, everything in its range.
    pub fn is_valid(&self) -> bool {
        let limits = [LAYER_LIMIT, 1, 1, LAYER_LIMIT, 1, 2, 15, 1];
        let words = &self.layers[..8 * self.count];
        let in_range = words.iter().enumerate().all(|(at, &word)| word <= limits[at % 8]);
        in_range && ascend(&self.ids())
    }

    fn ids(&self) -> Vec<u32> {
        self.layers[..8 * self.count].iter().step_by(8).copied().collect()
    }
}

fn ascend(ids: &[u32]) -> bool {
    ids.windows(2).all(|pair| pair[0] < pair[1])
}

fn field(word: u64, shift: u32, width: u32) -> u64 {
    word >> shift & ((1 << width) - 1)
}

/// The tile of a word, -1 for the stored number 0.
pub fn tile_x(word: u64) -> i64 {
    field(word, 41, 12) as i64 - 1
}

pub fn layer_id(word: u64) -> u32 {
    field(word, 20, 21) as u32
}

/// Number 3: segments descend, or one has another tile y.
fn is_row(row: &[u64], tile_y: i64) -> bool {
    let in_row = row.iter().all(|&word| field(word, 53, 11) as i64 - 1 == tile_y);
    in_row && row.windows(2).all(|pair| pair[0] >> 20 <= pair[1] >> 20)
}

/// The absolute covers of each layer and pixel row.
#[derive(Default)]
struct Loads(BTreeMap<u32, [u32; 16]>);

impl Loads {
    fn add_words<'w>(&mut self, words: impl Iterator<Item = &'w u64>) {
        for &word in words {
            let cover = (field(word, 0, 6) as i32 + 32) % 64 - 32;
            self.0.entry(layer_id(word)).or_default()[field(word, 12, 4) as usize] += cover.unsigned_abs();
        }
    }

    fn add_carries(&mut self, carries: &[Carry]) {
        for carry in carries {
            let loads = self.0.entry(carry.id).or_default();
            loads.iter_mut().zip(carry.cover).for_each(|(load, cover)| *load += u32::from(cover.unsigned_abs()));
        }
    }

    fn is_heavy(&self) -> bool {
        self.0.values().flatten().any(|&load| load > 127)
    }
}

/// Whether a queue has less than 256 entries.
pub fn is_short(ids: usize, covers: usize) -> bool {
    ids.min(covers / 16) < 256
}

pub fn opening(tile_y: i32, from: i32, to: i32, row: &[u64], table: &LentTable, queue_is_short: bool) -> u32 {
    if queue_is_short || table.is_short() {
        return 1;
    }
    if !(0..=2046).contains(&tile_y) || from < 0 || from > to || to > 4095 {
        return 2;
    }
    if !is_row(row, tile_y.into()) {
        return 3;
    }
    if !table.is_valid() {
        return 4;
    }
    let mut loads = Loads::default();
    loads.add_words(row.iter().filter(|&&word| tile_x(word) < from.into()));
    if loads.0.len() > 256 {
        return 7;
    }
    if loads.is_heavy() {
        9
    } else {
        0
    }
}

/// What tile work judges besides the row and the table. `queue` is what the lent columns hold where they are not short.
pub struct Tile<'a> {
    pub state: State,
    pub tile: i32,
    pub lent_short: bool,
    pub queue: &'a [Carry],
    /// The tag, where a cached tile is given.
    pub tag: Option<u8>,
}

pub fn work(tile: &Tile<'_>, row: &[u64], table: &LentTable) -> u32 {
    let [tile_y, from, to, next, ..] = tile.state.words.map(i64::from);
    if tile.lent_short || table.is_short() {
        return 1;
    }
    if tile_y > 2046 || to > 4095 || next < from || next >= to || i64::from(tile.tile) != next {
        return 2;
    }
    if !is_row(row, tile_y) {
        return 3;
    }
    if !table.is_valid() {
        return 4;
    }
    if tile.state.counts[0] > 256 || !ascend(&tile.queue.iter().map(|carry| carry.id).collect::<Vec<_>>()) {
        return 5;
    }
    if tile.tag.is_some_and(|tag| tag > 3) {
        return 6;
    }
    let mut loads = Loads::default();
    loads.add_carries(tile.queue);
    loads.add_words(row.iter().filter(|&&word| tile_x(word) == next));
    if loads.0.len() > 256 {
        return 7;
    }
    let known = table.ids();
    if !loads.0.keys().all(|id| known.binary_search(id).is_ok()) {
        return 8;
    }
    if loads.is_heavy() {
        9
    } else {
        0
    }
}

/// The next tile of a batch, behind so many: its own call, with a list of its own.
pub fn batch_tile(work: &Work, batch: &Batch, worked: usize, side: usize) -> u32 {
    let lent_short = batch.queues.iter().any(|queue| is_short(queue.ids.len(), queue.covers.len()));
    let queue = if lent_short { Vec::new() } else { carries(&batch.queues[side], batch.state.counts[0].min(256)) };
    let tag = work.is_kept.then(|| batch.kept[8 * worked]);
    let tile = Tile { state: batch.state, tile: work.tile + worked as i32, lent_short, queue: &queue, tag };
    self::work(&tile, &work.row, &work.table)
}

/// Deciding about n entries of a list. `ids` are theirs, as many as the column has.
pub fn deciding(lent_short: bool, ids: &[u32], n: usize, tag: Option<u8>, table: &LentTable) -> u32 {
    if lent_short || table.is_short() {
        return 1;
    }
    if !table.is_valid() {
        return 4;
    }
    if !ascend(ids) {
        return 5;
    }
    if tag.is_some_and(|tag| tag > 3) {
        return 6;
    }
    if n > 256 {
        return 7;
    }
    let known = table.ids();
    if ids.iter().all(|id| known.binary_search(id).is_ok()) {
        0
    } else {
        8
    }
}

/// Painting a layer of the tile just worked, whose queue had as many carries as the state says were taken in.
pub fn painting(tile: &Tile<'_>, layer: u32, row: &[u64], table: &LentTable) -> u32 {
    let [tile_y, from, to, next, ..] = tile.state.words.map(i64::from);
    if tile.lent_short || table.is_short() {
        return 1;
    }
    if tile_y > 2046 || to > 4095 || next <= from || next > to || tile.tile < 0 || i64::from(tile.tile) + 1 != next {
        return 2;
    }
    if !is_row(row, tile_y) {
        return 3;
    }
    if !table.is_valid() {
        return 4;
    }
    if tile.state.counts[1] > 256 || !ascend(&tile.queue.iter().map(|carry| carry.id).collect::<Vec<_>>()) {
        return 5;
    }
    if table.ids().binary_search(&layer).is_err() {
        return 8;
    }
    let mut loads = Loads::default();
    loads.add_carries(tile.queue);
    loads.add_words(row.iter().filter(|&&word| tile_x(word) == i64::from(tile.tile)));
    loads.0.retain(|&id, _| id == layer);
    if loads.is_heavy() {
        9
    } else {
        0
    }
}
