//! Rows over several frames in batches of any size, against the succession of the single calls and against the Rust.

use reference::plain::{Cached, Decision, Worked};

use crate::{
    batch_calls::{needed, work_tiles, Batch, ASKED, NEXT_REFUSED, NO_ROOM, ROW_END, TOLD},
    batch_damages::{damaged, later, narrow, ENDS, LATER},
    batch_edges,
    given::{Canvas, Memory, Queue, State, Work},
    judge,
    layers::lent,
    library,
    memory::{any_queue, any_state, brief, carries, REFUSED},
    models::{Judged, Models, Tables},
    random::Random,
    scene::{any_scene, Picture, Scene},
    tally::{caught, Kind, Tally},
};

pub fn compare(tally: &mut Tally) {
    tally.random("batches, rows over several frames", batches);
    tally.kind("batches, every edge", batch_edges::edges);
}

// ---- the succession of the single calls

/// The number, the memory, and how far it came.
pub struct Outcome {
    number: u32,
    after: Batch,
    done: [usize; 5],
}

/// Tile after tile, up to the first reason to end. A refusal of the first tile is the batch's, and leaves everything.
fn by_single_calls(work: &Work, tiles: usize, before: &Batch) -> Outcome {
    let mut outcome = Outcome { number: 0, after: before.clone(), done: [0; 5] };
    loop {
        let [worked, used, side, ..] = outcome.done;
        let [_, _, to, next, ..] = outcome.after.state.words;
        outcome.done[3] = if worked == tiles {
            ASKED
        } else if to <= next {
            ROW_END
        } else if !before.has_room(work, worked, used) {
            NO_ROOM
        } else {
            let number = judge::batch_tile(work, &outcome.after, worked, side);
            if number == 0 {
                outcome.turn(work);
                continue;
            }
            outcome.done[4] = number as usize;
            NEXT_REFUSED
        };
        if worked == 0 && outcome.done[3] == NEXT_REFUSED {
            outcome.number = outcome.done[4] as u32;
            return outcome;
        }
        outcome.after.done = outcome.done;
        // The state is written as it is read: whether there is a clip as 0 or 1, and no last layer of none.
        let [.., clip, last] = &mut outcome.after.state.words;
        (*clip, *last) = if *clip == 0 { (0, 0) } else { (1, *last) };
        return outcome;
    }
}

impl Outcome {
    /// The work on the next tile, and the painting of each of its shown layers; the layers that a solid tile mixes.
    fn turn(&mut self, work: &Work) {
        let Self { after, done: [worked, used, side, ..], .. } = self;
        let work = Work { tile: work.tile + *worked as i32, queue: after.queues[*side].clone(), ..work.clone() };
        let mut memory = one_tile(after, after.queues[1 - *side].clone());
        if work.is_kept {
            memory.kept.copy_from_slice(&after.kept[8 * *worked..][..8]);
        }
        assert_eq!(library::work_tile(&work, &mut memory), 0, "a tile that no condition refuses");
        let [decision, before, listed, skipped] = memory.told;
        let shown: Vec<u32> = (skipped..listed).filter(|&i| memory.shown[i]).map(|i| memory.list.ids[i]).collect();
        let told = [decision, before, listed, skipped, shown.len(), memory.state.counts[0]];
        after.told[TOLD * *worked..][..TOLD].copy_from_slice(&told);
        if decision == 1 {
            after.bottoms[4 * *worked..][..4].copy_from_slice(&memory.bottom.map(f32::from_bits));
        }
        if work.is_kept {
            after.kept[8 * *worked..][..8].copy_from_slice(&memory.kept);
        }
        let mut canvas = Canvas { state: memory.state, plane: vec![7.0; 256], mark: 7 };
        let first = [shown.len(), before, 0][decision];
        for &id in &shown[first..] {
            let mut mark = 0;
            if decision == 2 {
                assert_eq!(library::paint_layer(&work, id, &mut canvas), 0, "a shown layer is painted");
                after.planes[256 * *used..][..256].copy_from_slice(&canvas.plane);
                mark = canvas.mark;
            }
            after.painted[2 * *used..][..2].copy_from_slice(&[id, mark]);
            *used += 1;
        }
        after.state = canvas.state;
        after.queues[1 - *side] = memory.next;
        (*worked, *side) = (*worked + 1, 1 - *side);
    }
}

/// What one work is lent.
fn one_tile(batch: &Batch, next: Queue) -> Memory {
    let list = Queue { ids: vec![0; 256], covers: vec![0; 4096] };
    let (flags, shown) = (vec![false; 512], vec![false; 256]);
    Memory { state: batch.state, kept: [0; 8], next, list, flags, shown, told: [0; 4], bottom: [0; 4] }
}

/// One call on both sides; what it came to, where they agree.
pub fn check(kind: &mut Kind, work: &Work, tiles: usize, before: &Batch) -> Option<Outcome> {
    let wanted = by_single_calls(work, tiles, before);
    let [worked, .., end, refusal] = wanted.done;
    kind.note(match (wanted.number, end) {
        (0, NEXT_REFUSED) => LATER[refusal],
        (0, end) => ENDS[worked.min(1)][end],
        (number, _) => REFUSED[number as usize],
    });
    let mut after = before.clone();
    let number = work_tiles(work, tiles, &mut after);
    let same = number == wanted.number && after == wanted.after;
    kind.case(same, || {
        let (input, seen) = (input(work, tiles, before), after.unlike(&wanted.after));
        format!(
            "{input}: the library {number} {:?}, the single calls {} {:?}; {seen}",
            after.done, wanted.number, wanted.after.done
        )
    });
    same.then_some(wanted)
}

fn input(work: &Work, tiles: usize, before: &Batch) -> String {
    let Work { tile, row, table, is_kept, clear, previous, .. } = work;
    let first = &before.queues[0];
    let held = carries(first, before.state.counts[0].min(first.ids.len()).min(first.covers.len() / 16));
    let kept = is_kept.then_some(&before.kept);
    format!(
        "tile {tile}, {tiles} tiles, {:?}, row {row:x?}, {table:?}, kept {kept:?}, clear {clear:?}, \
         before {previous:?}, {held:?}, {} planes",
        before.state,
        before.planes()
    )
}

// ---- the rows

/// A row of a frame, as far as it is worked.
struct Open<'t> {
    models: Models<'t>,
    picture: &'t Picture,
    work: Work,
    to: usize,
    state: State,
    queue: Queue,
}

fn batches(kind: &mut Kind) {
    let scene = any_scene(&mut kind.random);
    let mut cached = vec![Cached::default(); scene.to];
    for picture in &scene.pictures {
        let tables = Tables::new(&picture.records);
        let mut row = Open::new(&mut kind.random, &scene, picture, &tables);
        while (row.work.tile as usize) < scene.to {
            if row.next_batch(kind, &mut cached).is_none() {
                return;
            }
        }
        let tiles = kind.random.below(3);
        let batch = row.any_batch(&mut kind.random, tiles, &cached);
        check(kind, &row.work, tiles, &batch);
    }
}

impl<'t> Open<'t> {
    fn new(random: &mut Random, scene: &Scene, picture: &'t Picture, tables: &'t Tables) -> Self {
        let models = Models::open(scene.tile_y, scene.from, scene.to, &picture.words, tables);
        let (mut queue, mut state) = (any_queue(random, false), any_state(random));
        let (row, table) = (picture.words.clone(), lent(&picture.records));
        let [tile_y, tile, to] = [scene.tile_y, scene.from, scene.to].map(|number| number as i32);
        let number = library::open_tile_row(tile_y, tile, to, &row, &table, &mut queue, &mut state);
        assert_eq!(number, 0, "a scene meets no condition");
        let (clear, previous, is_kept) = (picture.frame.clear, picture.frame.previous_clear, scene.caches);
        let nothing = Queue { ids: Vec::new(), covers: Vec::new() };
        let work = Work { tile, row, table, is_kept, clear, previous, queue: nothing };
        Self { models, picture, work, to: scene.to, state, queue }
    }

    /// All that a batch may write, longer than it needs, with numbers of its own; planes for a tile and some more.
    fn any_batch(&self, random: &mut Random, tiles: usize, cached: &[Cached]) -> Batch {
        let planes = needed(&self.work) + if random.once_in(4) { random.below(90) } else { random.below(16) };
        let mut kept: Vec<u8> = (0..8 * tiles + random.below(20)).map(|_| random.word() as u8).collect();
        for (bytes, cached) in kept.chunks_exact_mut(8).zip(&cached[self.work.tile as usize..]) {
            bytes.copy_from_slice(&cached.0);
        }
        if !self.work.is_kept {
            kept.truncate(random.below(20));
        }
        Batch {
            state: self.state,
            queues: [self.queue.clone(), any_queue(random, false)],
            kept,
            told: (0..TOLD * tiles + random.below(8)).map(|_| random.word() as usize).collect(),
            bottoms: (0..4 * tiles + random.below(6)).map(|_| f32::from_bits(random.word() as u32)).collect(),
            planes: (0..256 * planes + random.below(300)).map(|i| -1000.0 - i as f32).collect(),
            painted: (0..2 * planes + random.below(4)).map(|_| random.word() as u32).collect(),
            done: [(); 5].map(|()| random.word() as usize),
        }
    }

    /// A batch of any size, at times after one that is refused, or with a later tile that is.
    fn next_batch(&mut self, kind: &mut Kind, cached: &mut [Cached]) -> Option<()> {
        let random = &mut kind.random;
        let left = self.to - self.work.tile as usize;
        let tiles = match random.below(4) {
            0 => random.below(left + 1),
            1 => left + random.below(3),
            _ => left,
        };
        let mut batch = self.any_batch(random, tiles, cached);
        if random.once_in(3) {
            let (work, batch) = damaged(random, &self.work, &batch);
            check(kind, &work, tiles, &batch);
        }
        let mut work = self.work.clone();
        if kind.random.once_in(8) {
            narrow(&mut kind.random, &mut batch);
        }
        if kind.random.once_in(3) && left.min(tiles) > 1 {
            later(&mut kind.random, left.min(tiles), &mut work, &mut batch);
        }
        let outcome = check(kind, &work, tiles, &batch)?;
        self.follow(kind, &batch, &outcome, cached)
    }

    /// The Rust works the same tiles; the row goes on after them.
    fn follow(&mut self, kind: &mut Kind, before: &Batch, outcome: &Outcome, cached: &mut [Cached]) -> Option<()> {
        let Outcome { after, done: [worked, used, side, ..], .. } = outcome;
        let mut planes = 0;
        for at in 0..*worked {
            let tile = self.work.tile as usize + at;
            let kept = self.work.is_kept.then_some(cached[tile]);
            let Some(judged) = caught(|| self.models.work(tile, &self.picture.frame, kept)) else {
                kind.case(false, || format!("{}: the Rust panics at tile {tile}", input(&self.work, at, before)));
                return None;
            };
            self.compare_tile(kind, before, after, at, &judged.worked);
            planes += self.compare_planes(kind, before, after, planes, &judged.worked);
            let mut bytes = cached[tile];
            if self.work.is_kept {
                bytes.0.copy_from_slice(&after.kept[8 * at..][..8]);
            }
            cached[tile] = settled(kind, self.work.is_kept, bytes, &judged);
            if at + 1 == *worked {
                let held = carries(&after.queues[*side], after.state.counts[0]);
                kind.case((*used, &held) == (planes, &judged.worked.queue), || {
                    format!("{}: {used} planes, {held:?}; the Rust {planes}", input(&self.work, at, before))
                });
            }
        }
        self.work.tile += *worked as i32;
        (self.state, self.queue) = (after.state, after.queues[*side].clone());
        Some(())
    }

    /// The numbers of a tile, its bottom colour and its cached bytes.
    fn compare_tile(&self, kind: &mut Kind, before: &Batch, after: &Batch, at: usize, worked: &Worked) {
        let shown = worked.list.iter().skip(worked.skipped).filter(|entry| entry.shown).count();
        let bits =
            |batch: &Batch| -> Vec<u32> { batch.bottoms[4 * at..][..4].iter().map(|one| one.to_bits()).collect() };
        let (code, first, bottom) = match worked.decision {
            Decision::None => (0, 0, bits(before)),
            Decision::Solid { bottom, before, .. } => (1, before, bottom.map(f32::to_bits).to_vec()),
            Decision::Paint => (2, 0, bits(before)),
        };
        kind.note(["none", "solid", "paint"][code]);
        let told = [code, first, worked.list.len(), worked.skipped, shown, worked.queue.len()];
        let same = after.told[TOLD * at..][..TOLD] == told
            && bits(after) == bottom
            && worked.cached.is_none_or(|(kept, _)| after.kept[8 * at..][..8] == kept.0);
        kind.case(same, || {
            let told = &after.told[TOLD * at..][..TOLD];
            format!("{}: tile {at} of it {told:?}; the Rust {}", input(&self.work, at, before), brief(worked))
        });
    }

    /// The planes from `first` on, with their layers and marks; of a solid tile the layers to mix, and nothing written in
    /// the planes. How many that is.
    fn compare_planes(&self, kind: &mut Kind, before: &Batch, after: &Batch, first: usize, worked: &Worked) -> usize {
        let bits = |batch: &Batch, u: usize| -> Vec<u32> {
            batch.planes[256 * u..][..256].iter().map(|one| one.to_bits()).collect()
        };
        let mut compare = |u: usize, plane: Vec<u32>, id: u32, mark: u32| {
            let same = bits(after, u) == plane && after.painted[2 * u..][..2] == [id, mark];
            kind.case(same, || {
                let told = &after.painted[2 * u..][..2];
                format!("{}: plane {u} of {told:x?}; the Rust {id} {mark:x}", input(&self.work, u, before))
            });
        };
        let mixed = match worked.decision {
            Decision::Solid { before, .. } => before,
            _ => usize::MAX,
        };
        let shown = worked.list.iter().skip(worked.skipped).filter(|entry| entry.shown);
        let mixed: Vec<u32> = shown.skip(mixed).map(|entry| entry.id).collect();
        for (u, &id) in (first..).zip(&mixed) {
            compare(u, bits(before, u), id, 0);
        }
        for (u, painted) in (first..).zip(&worked.painted) {
            compare(u, painted.plane.map(f32::to_bits).to_vec(), painted.id, painted.mark);
        }
        mixed.len() + worked.painted.len()
    }
}

/// A solid tile is settled; what the next frame finds. A tile that is left out leaves the library's bytes to both sides.
fn settled(kind: &mut Kind, is_kept: bool, mut bytes: Cached, judged: &Judged) -> Cached {
    let worked = &judged.worked;
    if let Some((color, is_written)) = worked.settled {
        let ours = library::settle(is_kept, &mut bytes, color);
        kind.case(ours == Ok(is_written), || format!("settling {color:?} gives {ours:?}, the Rust {is_written}"));
    }
    if let Some(left_out) = &judged.left_out {
        kind.leave_out(left_out.why, left_out.is_other);
        return bytes;
    }
    worked.cached.map_or(bytes, |(_, settled)| settled)
}
