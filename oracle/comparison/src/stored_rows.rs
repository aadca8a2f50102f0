//! Whole rows among the stored answers: each frame of a row is a case, with the cached tiles that the frame before
//! left. Besides them some of the arrangements of up to three layers in one tile, in which the passes have most to
//! decide, and the histories of a changed clip. Tiles with a NonZero carry above 16 or a changed clip are the second
//! model's.

use reference::{
    cpu::RGBA,
    painter::row::{Frame, Row},
    plain::{Cached, Decision, Painted, Record, Rgba, Worked},
    Table,
};

use crate::{
    arrangements::{arrangement, count},
    changed_clips::histories,
    given::LentTable,
    layers::lent,
    models::{Models, Tables},
    random::Random,
    scene::{any_scene, Picture, Scene},
    stored_lines::{bytes, float, queue, Line},
};

/// How many rows are stored, and how many bytes they have at most.
const ROWS: usize = 40;
const BYTES: usize = 70_000;

/// How many arrangements are stored.
const ARRANGED: usize = 120;

pub fn rows(random: &mut Random) -> Vec<String> {
    let mut rows = Vec::new();
    while rows.len() < ROWS && rows.iter().map(String::len).sum::<usize>() < BYTES {
        let scene = small_scene(random);
        if scene.to - scene.from < 2 {
            continue;
        }
        let mut cached = vec![Cached::default(); scene.tiles];
        for picture in &scene.pictures {
            rows.push(row(random, &scene, picture, &mut cached, some_layers));
        }
    }
    rows.extend((0..ARRANGED).map(|_| arranged(random)));
    for (scene, _) in histories() {
        let mut cached = [Cached::default()];
        rows.extend(scene.pictures.iter().map(|picture| row(random, &scene, picture, &mut cached, painted_layers)));
    }
    rows
}

fn painted_layers(_: &mut Random, worked: &Worked, _: &Picture) -> Vec<u32> {
    worked.painted.iter().map(|painted| painted.id).collect()
}

/// Some of the layers that are painted, and at times one that is not.
fn some_layers(random: &mut Random, worked: &Worked, picture: &Picture) -> Vec<u32> {
    let mut layers: Vec<u32> =
        worked.painted.iter().map(|painted| painted.id).filter(|_| random.once_in(2)).take(2).collect();
    if let (true, Some(record)) = (random.once_in(6), picture.records.last()) {
        layers.push(record.id);
    }
    layers
}

/// None, every layer of the table, so that one clip follows another, or the last alone, with no clip painted before it.
fn none_all_or_last(random: &mut Random, _: &Worked, picture: &Picture) -> Vec<u32> {
    let mut ids = picture.records.iter().map(|record| record.id);
    match random.below(6) {
        0 => ids.collect(),
        1 | 2 => ids.next_back().into_iter().collect(),
        _ => Vec::new(),
    }
}

/// An arrangement of two or three layers; half of them end with a clipped draw above a clip.
pub fn any_arrangement(random: &mut Random) -> (Vec<u64>, Vec<Record>) {
    let layers = 2 + random.below(2) as u32;
    let is_clipped = random.once_in(2);
    loop {
        let (words, records) = arrangement(layers, random.below(count(layers)));
        let clips =
            records.iter().any(|record| record.func == 1) && records.last().is_some_and(|record| record.clipped == 1);
        if clips || !is_clipped {
            return (words, records);
        }
    }
}

/// An arrangement in one tile. The cached tile, where there is one, kept as many layers, one less or one more; the
/// clear colour is the one before, or another.
fn arranged(random: &mut Random) -> String {
    let (words, records) = any_arrangement(random);
    let kept = (records.len() + random.below(3) - 1) as u8;
    let clear = [0.25, 0.5, 0.75, 1.0];
    let previous_clear = random.pick(&[None, Some([0.5; 4]), Some(clear), Some(clear)]);
    let picture = Picture { words, records, frame: Frame { clear, previous_clear, channels: RGBA } };
    let mut cached = [Cached([random.below(4) as u8, kept, 0, 0, 1, 2, 3, 4])];
    let scene = Scene { tile_y: 0, from: 0, to: 1, tiles: 1, caches: !random.once_in(3), pictures: Vec::new() };
    row(random, &scene, &picture, &mut cached, none_all_or_last)
}

/// Which layers of a tile are painted after its work.
type Choice = fn(&mut Random, &Worked, &Picture) -> Vec<u32>;

pub fn row(random: &mut Random, scene: &Scene, picture: &Picture, cached: &mut [Cached], choice: Choice) -> String {
    let ends = [scene.tile_y, scene.from, scene.to].map(|end| end as i32);
    let tables = Tables::new(&picture.records);
    let given = row_given(ends, &lent(&picture.records), &picture.words);
    let mut text = Line { given, answer: opened(ends, &picture.words) }.text();
    let mut models = Models::open(scene.tile_y, scene.from, scene.to, &picture.words, &tables);
    text += &format!(" TILES {:x}", scene.to - scene.from);
    for (tile, cached) in (scene.from..scene.to).zip(&mut cached[scene.from..scene.to]) {
        let taken = models.queue().len();
        let before = *cached;
        let worked = models.work(tile, &picture.frame, scene.caches.then_some(before)).worked;
        let [tile_y, from, to] = ends.map(|end| end as u64);
        let mut state = [tile_y, from, to, tile as u64 + 1, 0, 0, worked.queue.len() as u64, taken as u64];
        let line = Line {
            given: tile_given(tile, scene.caches, before, picture.frame.clear, picture.frame.previous_clear),
            answer: tile_answer(&state, before, &worked),
        };
        text += &format!(" TILE {}", line.text());
        if let Some((_, after)) = worked.cached {
            *cached = after;
        }
        let layers = choice(random, &worked, picture);
        text += &format!(" PAINT {:x}", layers.len());
        for layer in layers {
            let painted = models.paint(layer);
            text += &format!(
                " {}",
                Line { given: vec![layer.into()], answer: painted_answer(&mut state, &painted) }.text()
            );
        }
    }
    text
}

pub fn tile_given(tile: usize, caches: bool, cached: Cached, clear: Rgba, previous: Option<Rgba>) -> Vec<u64> {
    let floats = |color: [f32; 4]| color.map(float).to_vec();
    [
        vec![tile as u64, caches.into()],
        bytes(&cached.0),
        floats(clear),
        vec![previous.is_some().into()],
        floats(previous.unwrap_or([0.0; 4])),
    ]
    .concat()
}

fn tile_answer(state: &[u64], before: Cached, worked: &Worked) -> Vec<u64> {
    let kept = worked.cached.map_or(before, |(kept, _)| kept);
    let (decision, first, bottom) = match worked.decision {
        Decision::None => (0, 0, [5.0; 4]),
        Decision::Solid { bottom, before, .. } => (1, before as u64, bottom),
        Decision::Paint => (2, 0, [5.0; 4]),
    };
    let list = &worked.list;
    let covers: Vec<i8> = list.iter().flat_map(|entry| entry.cover).collect();
    [
        vec![0],
        state.to_vec(),
        bytes(&kept.0),
        vec![decision, first, list.len() as u64, worked.skipped as u64],
        bottom.map(float).to_vec(),
        list.iter().map(|entry| entry.id.into()).collect(),
        Line::covers(&covers).collect(),
        list.iter().map(|entry| entry.has_segments.into()).collect(),
        list.iter().map(|entry| entry.changed.into()).collect(),
        list.iter().map(|entry| entry.shown.into()).collect(),
        queue(&worked.queue),
    ]
    .concat()
}

/// The clip is the only part of a state that painting changes.
fn painted_answer(state: &mut [u64], painted: &Painted) -> Vec<u64> {
    state[4] = painted.clip.is_some().into();
    state[5] = painted.clip.unwrap_or(0).into();
    [vec![0], state.to_vec(), vec![painted.mark.into()], painted.plane.map(float).to_vec()].concat()
}

/// A row that is short enough to be stored, with colours that have codes.
pub fn small_scene(random: &mut Random) -> Scene {
    loop {
        let mut scene = any_scene(random);
        let codes = [0.0, 0.25, 0.5, 1.0, 2.0, -0.0, f32::INFINITY, f32::NAN];
        for picture in &mut scene.pictures {
            let frame = &mut picture.frame;
            let clears = frame.clear.iter_mut().chain(frame.previous_clear.iter_mut().flatten());
            let colors = picture.records.iter_mut().flat_map(|record| &mut record.color).chain(clears);
            colors.for_each(|number| {
                if !codes.iter().any(|code| code.to_bits() == number.to_bits()) {
                    *number = 0.75
                }
            });
        }
        let picture = &scene.pictures[0];
        if picture.words.len() <= 100 && picture.records.len() <= 8 {
            return scene;
        }
    }
}

/// What an opening is given.
pub fn row_given(ends: [i32; 3], table: &LentTable, row: &[u64]) -> Vec<u64> {
    let (layers, colors) = (&table.layers[..8 * table.count], &table.colors[..4 * table.count]);
    [
        ends.map(|end| u64::from(end as u32)).to_vec(),
        vec![table.count as u64, row.len() as u64],
        layers.iter().map(|&word| word.into()).collect(),
        colors.iter().copied().map(float).collect(),
        row.to_vec(),
    ]
    .concat()
}

/// What an accepted opening answers.
pub fn opened([tile_y, from, to]: [i32; 3], row: &[u64]) -> Vec<u64> {
    let carries = Row::open(tile_y as usize, from as usize, to as usize, row, &Table::new(&[])).queue();
    let words = [tile_y, from, to, from, 0, 0].map(|word| word as u64);
    [vec![0], words.to_vec(), vec![carries.len() as u64, 0], queue(&carries)].concat()
}
