//! Outlines run backwards (W-210): rows whose covers lie in -31 to 31, and the same rows with every cover negated, in the
//! library and in the Rust. Decisions, lists, marks and coverages must be the same, and each carry negated.

use reference::plain::{Cached, Carry, Decision, Entry, Record, Worked};

use crate::{
    calls::{any_call, damage, refusal},
    given::{LentTable, Memory, Queue, State, Work},
    judge,
    layers::{damaged, lent},
    library,
    memory::{any_memory, any_queue, any_state, brief, damaged_row, expected, input, told, REFUSED},
    models::{Models, Tables},
    paintings::{any_canvas, paint_all, paint_left_out},
    random::Random,
    scene::{any_scene, Picture, Scene},
    tally::{caught, Kind, Tally},
};

pub fn compare(tally: &mut Tally) {
    tally.random("outlines run backwards, openings", openings);
    tally.random("outlines run backwards, rows over several frames", rows);
    tally.random("outlines run backwards, single calls", single);
}

/// The word with its cover negated. Its field is the lowest six bits.
fn turned(word: u64) -> u64 {
    word - word % 64 + (64 - word % 64) % 64
}

/// The words with -31 in place of -32, which has no opposite.
fn mild(words: &[u64]) -> Vec<u64> {
    words.iter().map(|&word| if word % 64 == 32 { word + 1 } else { word }).collect()
}

fn opposite(row: &[u64]) -> Vec<u64> {
    row.iter().copied().map(turned).collect()
}

/// The first n entries of lent columns with their covers negated.
fn turn(queue: &mut Queue, n: usize) {
    let end = queue.covers.len().min(n.saturating_mul(16));
    queue.covers[..end].iter_mut().for_each(|cover| *cover = cover.wrapping_neg());
}

/// What an accepted work leaves, with the covers of its list and of its carries negated.
fn turned_memory(memory: &Memory) -> Memory {
    let mut memory = memory.clone();
    turn(&mut memory.next, memory.state.counts[0]);
    turn(&mut memory.list, memory.told[2]);
    memory
}

fn turned_work(worked: &Worked) -> Worked {
    let negated = |cover: [i8; 16]| cover.map(|row| -row);
    let list = worked.list.iter().map(|entry| Entry { cover: negated(entry.cover), ..*entry }).collect();
    let queue = worked.queue.iter().map(|carry| Carry { cover: negated(carry.cover), ..*carry }).collect();
    Worked { list, queue, ..worked.clone() }
}

/// Rows at times damaged, and tables: one is opened exactly where the other is.
fn openings(kind: &mut Kind) {
    let random = &mut kind.random;
    let scene = any_scene(random);
    let picture = &scene.pictures[0];
    let is_damaged = random.once_in(3);
    let row = mild(&if is_damaged { damaged_row(random, &picture.words) } else { picture.words.clone() });
    let table = if random.once_in(8) { damaged(random, &picture.records) } else { lent(&picture.records) };
    let [tile_y, from, to] = [scene.tile_y, scene.from, scene.to].map(|end| end as i32);
    let (mut queue, mut state) = (any_queue(random, true), any_state(random));
    let (mut other_queue, mut other_state) = (queue.clone(), state);
    let is_short = judge::is_short(queue.ids.len(), queue.covers.len());
    kind.note(REFUSED[judge::opening(tile_y, from, to, &row, &table, is_short) as usize]);
    let number = library::open_tile_row(tile_y, from, to, &row, &table, &mut queue, &mut state);
    let other = library::open_tile_row(tile_y, from, to, &opposite(&row), &table, &mut other_queue, &mut other_state);
    if number == 0 {
        turn(&mut queue, state.counts[0]);
    }
    let same = number == other && (&queue, state) == (&other_queue, other_state);
    kind.case(same, || format!("tiles {from} to {to}, row {row:x?}, {table:?}: {number}, and its opposite {other}"));
}

/// A row on both sides, tile after tile.
struct Side<'t> {
    models: Models<'t>,
    row: Vec<u64>,
    table: LentTable,
    state: State,
    queue: Queue,
}

impl<'t> Side<'t> {
    fn open(random: &mut Random, scene: &Scene, row: Vec<u64>, records: &[Record], tables: &'t Tables) -> Self {
        let models = Models::open(scene.tile_y, scene.from, scene.to, &row, tables);
        let (mut queue, mut state) = (any_queue(random, false), any_state(random));
        let table = lent(records);
        let [tile_y, from, to] = [scene.tile_y, scene.from, scene.to].map(|end| end as i32);
        let number = library::open_tile_row(tile_y, from, to, &row, &table, &mut queue, &mut state);
        assert_eq!(number, 0, "a scene meets no condition");
        Self { models, row, table, state, queue }
    }

    fn call(&self, tile: usize, picture: &Picture, is_kept: bool) -> Work {
        let (row, table, queue) = (self.row.clone(), self.table.clone(), self.queue.clone());
        let (clear, previous) = (picture.frame.clear, picture.frame.previous_clear);
        Work { tile: tile as i32, row, table, is_kept, clear, previous, queue }
    }
}

fn rows(kind: &mut Kind) {
    let scene = any_scene(&mut kind.random);
    let mut cached = vec![Cached::default(); scene.tiles];
    for picture in &scene.pictures {
        let tables = Tables::new(&picture.records);
        let row = mild(&picture.words);
        let back = opposite(&row);
        let mut sides = [row, back].map(|row| Side::open(&mut kind.random, &scene, row, &picture.records, &tables));
        for (tile, cached) in (scene.from..scene.to).zip(&mut cached[scene.from..scene.to]) {
            let Some(kept) = work(kind, &mut sides, tile, picture, scene.caches.then_some(*cached)) else {
                return;
            };
            *cached = kept;
        }
    }
}

/// One tile of a row and of its opposite, from one memory: the library's answers, the Rust's, and each with the other.
fn work(
    kind: &mut Kind,
    sides: &mut [Side<'_>; 2],
    tile: usize,
    picture: &Picture,
    given: Option<Cached>,
) -> Option<Cached> {
    let cached = given.unwrap_or_default();
    let before = any_memory(&mut kind.random, sides[0].state, cached);
    let mut left = Vec::new();
    for side in &mut *sides {
        let call = side.call(tile, picture, given.is_some());
        let mut after = before.clone();
        let number = library::work_tile(&call, &mut after);
        let Some(judged) = caught(|| side.models.work(tile, &picture.frame, given)) else {
            kind.case(false, || format!("{}: the Rust panics", input(&call, &before)));
            return None;
        };
        let wanted = expected(&before, &judged.worked);
        kind.case(number == 0 && after == wanted, || {
            let (call, seen) = (input(&call, &before), told(&after, &wanted));
            format!("{call}: {number}, {seen}; the Rust {}", brief(&judged.worked))
        });
        paint_all(kind, &call, wanted.state, &judged.worked.painted);
        paint_left_out(kind, &call, wanted.state, &judged);
        (side.state, side.queue) = (after.state, after.next.clone());
        left.push((call, after, judged.worked));
    }
    let [(call, after, worked), (_, back, worked_back)] = &left[..] else { unreachable!() };
    kind.note(match worked.decision {
        Decision::None => "none",
        Decision::Solid { .. } => "solid",
        Decision::Paint => "paint",
    });
    let wanted = turned_memory(after);
    kind.case(*back == wanted, || format!("{}: the opposite leaves {}", input(call, &before), told(back, &wanted)));
    kind.case(worked_back.is_same(&turned_work(worked)), || {
        format!("{}: the Rust {}; of the opposite {}", input(call, &before), brief(worked), brief(worked_back))
    });
    Some(settled(kind, call, &before, after, given.is_some()))
}

/// What is kept in the end, by display bytes of its own for a solid tile.
fn settled(kind: &mut Kind, call: &Work, before: &Memory, after: &Memory, is_given: bool) -> Cached {
    let mut kept = Cached(after.kept);
    if after.told[0] == 1 && library::settle(is_given, &mut kept, [1, 2, 3, 4]).is_err() {
        kind.case(false, || format!("{}: a solid tile is not settled", input(call, before)));
    }
    kept
}

/// A work with any queue, and a painting after it, damaged in each way that a refusal knows; and the same with every cover
/// negated, of the row and of the queue.
fn single(kind: &mut Kind) {
    let random = &mut kind.random;
    let (mut call, mut before) = any_call(random);
    if random.once_in(2) {
        damage(random, &mut call, &mut before);
    }
    call.row = mild(&call.row);
    call.queue.covers.iter_mut().for_each(|cover| *cover = (*cover).max(-127));
    let mut back = Work { row: opposite(&call.row), ..call.clone() };
    turn(&mut back.queue, usize::MAX);
    let number = refusal(&call, &before);
    kind.note(REFUSED[number as usize]);
    let (mut after, mut turned) = (before.clone(), before.clone());
    let numbers = [library::work_tile(&call, &mut after), library::work_tile(&back, &mut turned)];
    let wanted = if number == 0 { turned_memory(&after) } else { before.clone() };
    kind.case(numbers == [number; 2] && turned == wanted, || {
        format!("{}: {numbers:?}, the opposite {}", input(&call, &before), told(&turned, &wanted))
    });
    let layer = if call.table.count > 0 && !call.table.is_short() { call.table.layers[0] } else { 0 };
    let canvas = any_canvas(&mut kind.random, after.state, true);
    let (mut one, mut other) = (canvas.clone(), canvas.clone());
    let painted = [library::paint_layer(&call, layer, &mut one), library::paint_layer(&back, layer, &mut other)];
    kind.note(if painted[0] == 0 { "painted" } else { "a refused painting" });
    kind.case(painted[0] == painted[1] && one == other, || {
        format!("{}: layer {layer}, {painted:?}, {:x} and {:x}", input(&call, &before), one.mark, other.mark)
    });
}
