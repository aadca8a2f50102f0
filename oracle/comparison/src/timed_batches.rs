//! Whole rows in batches: one call to open the row, and one for as many tiles as the lent planes take.

use std::hint::black_box;

use crate::{
    batch_calls::{needed, work_tiles, Batch, TOLD},
    given::{Queue, State, Work},
    layers::lent,
    library,
    loads::Asked,
    random::Random,
    timed_rows::{accepted, bits, task, Ours, CLEAR},
    timed_scenes::{bands, clips, dense, draws, level, load, part, Row},
    timing::Bench,
};

/// What the ratio should be at most.
const AIM: f64 = 0.65;

/// The library's side of a row, with all that its calls are lent.
struct Batched {
    tiles: usize,
    work: Work,
    batch: Batch,
}

impl Batched {
    /// With planes for so many layers beside those that a tile can use.
    fn new(row: &Row, planes: usize) -> Self {
        let queue = || Queue { ids: vec![0; 256], covers: vec![0; 4096] };
        let (words, table) = (row.words.clone(), lent(&row.records));
        let work = Work { tile: 0, row: words, table, is_kept: false, clear: CLEAR, previous: None, queue: queue() };
        // A batch ends where fewer planes are free than a tile can use.
        let planes = planes + needed(&work) - 1;
        let batch = Batch {
            state: State { words: [0; 6], counts: [0; 2] },
            queues: [queue(), queue()],
            kept: Vec::new(),
            told: vec![0; TOLD * row.tiles],
            bottoms: vec![0.0; 4 * row.tiles],
            planes: vec![0.0; 256 * planes],
            painted: vec![0; 2 * planes],
            done: [0; 5],
        };
        Self { tiles: row.tiles, work, batch }
    }

    #[inline(never)]
    fn run(&mut self, mut seen: impl FnMut(&Batch)) -> Result<(), u32> {
        let Self { tiles, work, batch } = self;
        let Work { row, table, .. } = work;
        accepted(library::open_tile_row(0, 0, *tiles as i32, row, table, &mut batch.queues[0], &mut batch.state))?;
        let mut worked = 0;
        while worked < *tiles {
            work.tile = worked as i32;
            accepted(work_tiles(work, *tiles - worked, batch))?;
            seen(batch);
            worked += batch.done[0];
            if batch.done[2] == 1 {
                batch.queues.swap(0, 1);
            }
        }
        Ok(())
    }
}

/// A painted layer: its plane and its mark.
type Painted = (Vec<f32>, u32);

/// Of an unclipped draw the mark says which octets have a coverage; that of a clip is 0.
fn is_mark_of(row: &Row, id: u32, (plane, mark): &Painted) -> bool {
    let record = row.records.iter().find(|record| record.id == id).unwrap();
    let octets = (0..256).filter(|&at| plane[at] > 0.0).fold(0, |mark, at| {
        let (row, column) = (at / 16, at % 16);
        mark | 1 << (2 * column + row / 8)
    });
    match (record.func, record.clipped) {
        (1, _) => *mark == 0,
        (_, 0) => *mark == octets,
        _ => *mark == octets || *mark == 0,
    }
}

/// The places of the painted layers; a solid tile has those that it mixes in `painted` too.
fn painted_places(batch: &Batch) -> Vec<usize> {
    let (mut places, mut used) = (Vec::new(), 0);
    for told in batch.told.chunks_exact(TOLD).take(batch.done[0]) {
        match told[0] {
            1 => used += told[4] - told[1],
            2 => {
                places.extend(used..used + told[4]);
                used += told[4];
            }
            _ => (),
        }
    }
    assert_eq!(used, batch.done[1]);
    places
}

/// The coverages and the marks are those of the single calls, in their order; the bits of all coverages.
fn check(row: &Row, planes: usize) -> Vec<u64> {
    let (mut ours, mut single): (Vec<Painted>, Vec<Painted>) = (Vec::new(), Vec::new());
    let mut ids = Vec::new();
    let result = Batched::new(row, planes).run(|batch| {
        for i in painted_places(batch) {
            ids.push(batch.painted[2 * i]);
            ours.push((batch.planes[256 * i..256 * (i + 1)].to_vec(), batch.painted[2 * i + 1]));
        }
    });
    assert_eq!(result, Ok(()));
    assert_eq!(Ours::new(row).run(|canvas| single.push((canvas.plane.clone(), canvas.mark))), Ok(()));
    assert!(ids.iter().zip(&ours).all(|(&id, painted)| is_mark_of(row, id, painted)));
    assert!(ours.iter().map(|(_, mark)| mark).eq(single.iter().map(|(_, mark)| mark)));
    let answers = bits(ours.iter().flat_map(|(plane, _)| plane));
    assert!(answers == bits(single.iter().flat_map(|(plane, _)| plane)));
    answers
}

/// A line for a row; `calls` is what its times are divided by.
fn line(bench: &mut Bench, name: &str, (calls, aim): (usize, Option<f64>), row: &Row, planes: usize, answers: &[u64]) {
    let mut ours = Batched::new(row, planes);
    let ours = || {
        let result = black_box(&mut ours).run(|batch| {
            black_box(batch);
        });
        assert_eq!(result, Ok(()));
    };
    bench.beside(name, calls, aim, task(row), answers, ours);
}

/// A made load of the first seed that no condition refuses, its layers as given.
fn first_load(tiles: i64, segments: i64, change: impl Fn(&mut Row)) -> Row {
    let made = |seed| {
        let mut row = load(Asked { seed, tiles, segments }, 0);
        change(&mut row);
        row
    };
    (0..).map(made).find(|row| Batched::new(row, 1).run(|_| ()).is_ok()).unwrap()
}

fn rows() -> Vec<(String, f64, Row)> {
    let mut rows = Vec::new();
    for (tiles, segments) in [(4, 64), (64, 512), (256, 512), (1024, 512), (4095, 512)] {
        rows.push((format!("{tiles}/{segments}"), AIM, first_load(tiles, segments, |_| ())));
    }
    let half = |row: &mut Row| row.records.iter_mut().for_each(|record| record.rule = record.id % 2);
    let even_odd = |row: &mut Row| row.records.iter_mut().for_each(|record| record.rule = 1);
    rows.push(("64/512, half EvenOdd".to_string(), AIM, first_load(64, 512, half)));
    rows.push(("64/512, EvenOdd".to_string(), AIM, first_load(64, 512, even_odd)));
    rows.push(("64/512, clips".to_string(), AIM, first_load(64, 512, |row| row.records = clips(8))));
    for (each, aim) in [(16, 0.7), (64, 1.0), (256, 1.25)] {
        rows.push((format!("8 tiles, 8 layers, {each} each"), aim, dense(each)));
    }
    let random = &mut Random::new(2);
    for (layers, alpha, name) in
        [(4, 0.5, "translucent"), (32, 0.5, "translucent"), (128, 0.5, "translucent"), (32, 1.0, "opaque")]
    {
        rows.push((format!("32 tiles, {layers} {name}"), AIM, bands(random, draws(layers, alpha))));
    }
    rows.push(("32 tiles, 64 with clips".to_string(), AIM, bands(random, clips(64))));
    rows
}

/// Each row with planes for 32 layers of use, and for 256. A name has the tiles and the segments of a made load.
pub fn print(bench: &mut Bench) {
    let rows = rows();
    for planes in [32, 256] {
        for (name, aim, row) in &rows {
            let answers = check(row, planes);
            let name = format!("batch {planes}: {name}, {} painted", answers.len() / 256);
            line(bench, &name, (1, Some(*aim)), row, planes, &answers);
        }
    }
    for number in 0..6 {
        let row = part(number);
        let answers = check(&row, 256);
        let painted = answers.len() / 256;
        let name = format!("a real plate, row {number}: 20 tiles, {} segments, {painted} painted", row.words.len());
        line(bench, &name, (1, None), &row, 256, &answers);
    }
}

/// Rows of doubling sizes, each in one batch: times a segment, a tile, and a painted layer.
pub fn print_doubling(bench: &mut Bench) {
    let mut doubled = |name: String, row: &Row, calls: usize| {
        let planes = row.tiles * row.records.len();
        let answers = check(row, planes);
        assert_eq!(answers.len(), 256 * planes);
        line(bench, &format!("double {name}"), (calls, None), row, planes, &answers);
    };
    for pairs in (0..8).map(|n| 1 << n) {
        let row = level(16, 8, pairs);
        let segments = row.words.len();
        doubled(format!("segments: 16 tiles, 8 layers, {segments} segments"), &row, segments);
    }
    for tiles in (0..7).map(|n| 16 << n) {
        doubled(format!("tiles: {tiles} tiles, 4 layers"), &level(tiles, 4, 8), tiles);
    }
    for layers in (0..7).map(|n| 4 << n) {
        doubled(format!("layers: 16 tiles, {layers} layers"), &level(16, layers, 8), 16 * layers as usize);
    }
}
