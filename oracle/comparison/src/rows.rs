//! Rows over several frames: the work on each of their tiles, and the settling of solid ones.

use reference::plain::{blend, Cached, Decision, Record, Rgba, Worked};

use crate::{
    given::{LentTable, Memory, Queue, State, Work},
    layers::lent,
    library,
    memory::{any_memory, any_queue, any_state, brief, expected, input, told},
    models::{Judged, Models, Tables},
    paintings::{paint_all, paint_left_out},
    random::Random,
    scene::{any_scene, Picture, Scene},
    tally::{caught, Kind, Tally},
};

pub fn compare(tally: &mut Tally) {
    tally.random("drive_tile_painting, rows over several frames", rows);
}

/// One row of a frame on both sides, tile after tile.
pub struct Pair<'t> {
    pub models: Models<'t>,
    records: &'t [Record],
    table: LentTable,
    row: &'t [u64],
    state: State,
    queue: Queue,
}

impl<'t> Pair<'t> {
    pub fn open(random: &mut Random, scene: &Scene, picture: &'t Picture, tables: &'t Tables) -> Self {
        let models = Models::open(scene.tile_y, scene.from, scene.to, &picture.words, tables);
        let mut queue = any_queue(random, false);
        let mut state = any_state(random);
        let lent_table = lent(&picture.records);
        let (tile_y, from, to) = (scene.tile_y as i32, scene.from as i32, scene.to as i32);
        let number = library::open_tile_row(tile_y, from, to, &picture.words, &lent_table, &mut queue, &mut state);
        assert_eq!(number, 0, "a scene meets no condition");
        Self { models, records: &picture.records, table: lent_table, row: &picture.words, state, queue }
    }

    fn work(&self, tile: usize, clear: Rgba, previous: Option<Rgba>, is_kept: bool) -> Work {
        let (row, table, queue) = (self.row.to_vec(), self.table.clone(), self.queue.clone());
        Work { tile: tile as i32, row, table, is_kept, clear, previous, queue }
    }
}

/// The colour of a solid tile, mixed by the Rust from what the library says: the bottom colour and the shown layers
/// after the first.
fn mixed(memory: &Memory, records: &[Record]) -> Rgba {
    let [_, before, listed, skipped] = memory.told;
    let shown = (skipped..listed).filter(|&i| memory.shown[i]).skip(before);
    shown.fold(memory.bottom.map(f32::from_bits), |below, i| {
        let record = records.iter().find(|record| record.id == memory.list.ids[i]).unwrap();
        blend(below, record.mode, record.color)
    })
}

fn same_color(a: Rgba, b: Rgba) -> bool {
    a.iter().zip(b).all(|(a, b)| a.to_bits() == b.to_bits() || a.is_nan() && b.is_nan())
}

fn note(kind: &mut Kind, worked: &Worked) {
    kind.note(match worked.decision {
        Decision::None => "none",
        Decision::Solid { before: 0, .. } => "solid on the clear colour",
        Decision::Solid { .. } => "solid on a layer",
        Decision::Paint => "paint",
    });
    if worked.skipped > 0 {
        kind.note("with layers skipped");
    }
    if worked.list.iter().any(|entry| !entry.shown) {
        kind.note("with layers masked off");
    }
}

fn rows(kind: &mut Kind) {
    let scene = any_scene(&mut kind.random);
    // Bytes that are not given may be any, and stay.
    let bytes =
        |random: &mut Random| if scene.caches { Cached::default() } else { Cached(random.word().to_le_bytes()) };
    let mut cached: Vec<Cached> = (0..scene.tiles).map(|_| bytes(&mut kind.random)).collect();
    for picture in &scene.pictures {
        let tables = Tables::new(&picture.records);
        let mut pair = Pair::open(&mut kind.random, &scene, picture, &tables);
        for (tile, cached) in (scene.from..scene.to).zip(&mut cached[scene.from..scene.to]) {
            work(kind, &mut pair, tile, picture, scene.caches, cached);
        }
    }
}

/// One tile on both sides, and the settling of a solid one; what the library must answer, where the Rust does not panic.
pub fn work(
    kind: &mut Kind,
    pair: &mut Pair<'_>,
    tile: usize,
    picture: &Picture,
    caches: bool,
    cached: &mut Cached,
) -> Option<Judged> {
    let frame = &picture.frame;
    let call = pair.work(tile, frame.clear, frame.previous_clear, caches);
    let before = any_memory(&mut kind.random, pair.state, *cached);
    let mut after = before.clone();
    let number = library::work_tile(&call, &mut after);
    let Some(judged) = caught(|| pair.models.work(tile, frame, caches.then_some(*cached))) else {
        kind.case(false, || format!("{}: the Rust panics", input(&call, &before)));
        return None;
    };
    let worked = &judged.worked;
    note(kind, worked);
    let wanted = expected(&before, worked);
    kind.case(number == 0 && after == wanted, || {
        let (call, seen) = (input(&call, &before), told(&after, &wanted));
        format!("{call}: the library {number}, {seen}; the Rust {}", brief(worked))
    });
    if let (Decision::Solid { mixed: rust, .. }, true) = (worked.decision, after == wanted) {
        let ours = mixed(&after, pair.records);
        kind.case(same_color(ours, rust), || format!("{}: mixed {ours:?}, the Rust {rust:?}", input(&call, &before)));
    }
    paint_all(kind, &call, wanted.state, &worked.painted);
    paint_left_out(kind, &call, wanted.state, &judged);
    *cached = settle(kind, &call, &before, Cached(after.kept), &judged);
    pair.state = after.state;
    pair.queue = after.next;
    Some(judged)
}

/// What is kept in the end: of a solid tile after settling. Where no cached tile is given, all bytes are as before. A tile
/// that is left out leaves the library's bytes to the next frame of both sides.
fn settle(kind: &mut Kind, call: &Work, before: &Memory, mut kept: Cached, judged: &Judged) -> Cached {
    let worked = &judged.worked;
    if let Some((bytes, is_written)) = worked.settled {
        let ours = library::settle(call.is_kept, &mut kept, bytes);
        kind.case(ours == Ok(is_written), || {
            format!("{}: settling {bytes:?} gives {ours:?}, the Rust writes: {is_written}", input(call, before))
        });
    }
    let wanted = worked.cached.map_or(Cached(before.kept), |(_, settled)| settled);
    kind.case(kept == wanted, || format!("{}: kept {kept:?}, the Rust {wanted:?}", input(call, before)));
    if judged.left_out.is_some() {
        kept
    } else {
        wanted
    }
}
