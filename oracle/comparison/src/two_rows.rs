//! Two rows that agree on one layer, its segments and its rule (W-214): whatever else they hold, both say the same of that
//! layer, in the library and in the Rust.

use reference::{
    painter::row::Frame,
    plain::{Cached, Record, Worked},
};

use crate::{
    given::{Canvas, LentTable, Memory, Queue, State, Work, LAYER_LIMIT},
    layers::lent,
    library,
    memory::{any_memory, any_queue, any_state},
    models::{Models, Tables},
    random::Random,
    scene::{any_record, any_scene, Picture},
    tally::{Kind, Tally},
    two_calls,
};

pub fn compare(tally: &mut Tally) {
    tally.random("two rows that agree on a layer", pair);
}

/// The bits of a word below tile y.
const BELOW_TILE_Y: u64 = (1 << 53) - 1;

/// What a tile says of a layer: incoming cover and whether it has segments, where it is listed, and the carry past the tile.
#[derive(Debug, PartialEq)]
struct Said {
    listed: Option<([i8; 16], bool)>,
    carry: Option<[i8; 16]>,
}

/// A row, tile after tile, in the library and in the Rust.
struct Half<'t> {
    models: Models<'t>,
    frame: Frame,
    row: Vec<u64>,
    table: LentTable,
    state: State,
    queue: Queue,
}

fn layer_of(word: u64) -> u32 {
    (word >> 20) as u32 & LAYER_LIMIT
}

/// The cover of a layer among the first n of a queue's or a list's columns.
fn cover_in(columns: &Queue, n: usize, id: u32) -> Option<(usize, [i8; 16])> {
    let at = columns.ids[..n].iter().position(|&other| other == id)?;
    Some((at, columns.covers[16 * at..16 * at + 16].try_into().unwrap()))
}

fn said_by_rust(worked: &Worked, id: u32) -> Said {
    let entry = worked.list.iter().find(|entry| entry.id == id);
    let carry = worked.queue.iter().find(|carry| carry.id == id);
    Said { listed: entry.map(|entry| (entry.cover, entry.has_segments)), carry: carry.map(|carry| carry.cover) }
}

impl<'t> Half<'t> {
    fn open(random: &mut Random, y: usize, from: usize, to: usize, picture: &Picture, tables: &'t Tables) -> Self {
        let row = picture.words.clone();
        let models = Models::open(y, from, to, &row, tables);
        let table = lent(&picture.records);
        let (mut queue, mut state) = (any_queue(random, false), any_state(random));
        let number = library::open_tile_row(y as i32, from as i32, to as i32, &row, &table, &mut queue, &mut state);
        assert_eq!(number, 0, "a scene meets no condition");
        Self { models, frame: picture.frame, row, table, state, queue }
    }

    fn carry(&self, id: u32) -> Option<[i8; 16]> {
        cover_in(&self.queue, self.state.counts[0], id).map(|(_, cover)| cover)
    }

    /// The next tile, worked or only listed, and the layer painted in it: what is said of the layer, by the library and by
    /// the Rust, and the bits of its coverages where painting takes it.
    fn tile(&mut self, random: &mut Random, tile: usize, id: u32) -> (Said, Said, Option<Vec<u32>>) {
        let (row, table, queue) = (self.row.clone(), self.table.clone(), self.queue.clone());
        let Frame { clear, previous_clear: previous, .. } = self.frame;
        let call = Work { tile: tile as i32, row, table, is_kept: false, clear, previous, queue };
        let mut memory = any_memory(random, self.state, Cached::default());
        let lists = random.once_in(2);
        let number =
            if lists { two_calls::list_tile(&call, &mut memory) } else { library::work_tile(&call, &mut memory) };
        assert_eq!(number, 0, "a scene meets no condition");
        let Memory { state, next, list, flags, told, .. } = memory;
        let listed = cover_in(&list, told[2], id).map(|(at, cover)| (cover, flags[at]));
        (self.state, self.queue) = (state, next);
        let rust = said_by_rust(&self.models.work(tile, &self.frame, None).worked, id);
        let mut canvas = Canvas { state, plane: vec![7.0; 256], mark: 0 };
        let is_painted = library::paint_layer(&call, id, &mut canvas) == 0;
        self.state = canvas.state;
        let plane = is_painted.then(|| canvas.plane.iter().map(|coverage| coverage.to_bits()).collect());
        (Said { listed, carry: self.carry(id) }, rust, plane)
    }
}

/// The second picture's layers with the first's segments of one layer in place of its own: as another tile row, in another
/// order inside a tile, and with a record that has the rule alone of the first's.
fn shared(random: &mut Random, first: &Picture, layer: &Record, mut second: Picture, tile_y: usize) -> Picture {
    second.words.retain(|&word| layer_of(word) != layer.id);
    let own = first.words.iter().filter(|&&word| layer_of(word) == layer.id).rev();
    second.words.extend(own.map(|word| word & BELOW_TILE_Y | (tile_y as u64 + 1) << 53));
    second.words.sort_by_key(|word| word >> 20);
    second.records.retain(|record| record.id != layer.id);
    let clips = random.below(8);
    second.records.push(Record { rule: layer.rule, ..any_record(random, layer.id, clips) });
    second.records.sort_by_key(|record| record.id);
    second
}

fn pair(kind: &mut Kind) {
    let (scene, other) = (any_scene(&mut kind.random), any_scene(&mut kind.random));
    let first = &scene.pictures[0];
    if first.records.is_empty() {
        return;
    }
    let layer = kind.random.pick(&first.records);
    let second = shared(&mut kind.random, first, &layer, other.pictures[0].clone(), other.tile_y);
    let (from, to) = (scene.from, scene.from + kind.random.below(7));
    let (tables, others) = (Tables::new(&first.records), Tables::new(&second.records));
    let mut a = Half::open(&mut kind.random, scene.tile_y, from, scene.to, first, &tables);
    let mut b = Half::open(&mut kind.random, other.tile_y, from, to, &second, &others);
    let told = |tile: usize| format!("layer {} in tile {tile} of {:x?} and {:x?}", layer.id, first, second);
    kind.case(a.carry(layer.id) == b.carry(layer.id), || format!("before {}", told(from)));
    for tile in from..to.min(scene.to) {
        let (ours, rust, plane) = a.tile(&mut kind.random, tile, layer.id);
        let (its, other_rust, other_plane) = b.tile(&mut kind.random, tile, layer.id);
        kind.note(if ours.listed.is_some() { "listed" } else { "not listed" });
        kind.case(ours == its, || format!("{}: {ours:?}, {its:?}", told(tile)));
        kind.case(rust == other_rust && rust == ours, || format!("{}: the Rust {rust:?}, {other_rust:?}", told(tile)));
        if let (Some(plane), Some(other_plane)) = (plane, other_plane) {
            kind.note("painted in both");
            kind.case(plane == other_plane, || format!("{}: coverages", told(tile)));
        }
    }
}
