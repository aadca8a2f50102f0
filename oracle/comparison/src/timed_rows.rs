//! Whole rows: opening, the work on each tile, and the coverages of every layer that is painted.

use std::hint::black_box;

use reference::plain::Carry;

use crate::{
    builds::Task,
    given::{Canvas, Memory, Queue, State, Work},
    layers::lent,
    library,
    loads::Asked,
    memory::carries,
    random::Random,
    timed_scenes::{bands, clips, dense, draws, left_of, load, part, Row},
    timing::Bench,
};

/// The clear colour, which is the Rust's too.
pub const CLEAR: [f32; 4] = [1.0; 4];

/// The library's side of a row, with all that its calls are lent.
pub struct Ours {
    tiles: usize,
    work: Work,
    pub memory: Memory,
    canvas: Canvas,
}

pub fn accepted(number: u32) -> Result<(), u32> {
    if number == 0 {
        Ok(())
    } else {
        Err(number)
    }
}

impl Ours {
    pub fn new(row: &Row) -> Self {
        let queue = || Queue { ids: vec![0; 256], covers: vec![0; 4096] };
        let state = State { words: [0; 6], counts: [0; 2] };
        let (flags, shown) = (vec![false; 512], vec![false; 256]);
        let (words, table) = (row.words.clone(), lent(&row.records));
        let work = Work { tile: 0, row: words, table, is_kept: false, clear: CLEAR, previous: None, queue: queue() };
        let (next, list) = (queue(), queue());
        let memory = Memory { state, kept: [0; 8], next, list, flags, shown, told: [0; 4], bottom: [0; 4] };
        Self { tiles: row.tiles, work, memory, canvas: Canvas { state, plane: vec![0.0; 256], mark: 0 } }
    }

    fn open(&mut self) -> Result<(), u32> {
        let Work { row, table, queue, .. } = &mut self.work;
        accepted(library::open_tile_row(0, 0, self.tiles as i32, row, table, queue, &mut self.memory.state))
    }

    /// One call to open the row and the work on each tile, without painting, up to a refusal.
    #[inline(never)]
    pub fn work(&mut self, tile_work: impl Fn(&Work, &mut Memory) -> u32) -> Result<(), u32> {
        self.open()?;
        let Self { tiles, work, memory, .. } = self;
        for tile in 0..*tiles as i32 {
            work.tile = tile;
            accepted(tile_work(work, memory))?;
            std::mem::swap(&mut work.queue, &mut memory.next);
        }
        Ok(())
    }

    /// One call to open the row, one for each tile, and one for each layer that is painted, up to a refusal.
    #[inline(never)]
    pub fn run(&mut self, mut seen: impl FnMut(&Canvas)) -> Result<(), u32> {
        self.open()?;
        let Self { tiles, work, memory, canvas } = self;
        for tile in 0..*tiles as i32 {
            work.tile = tile;
            accepted(library::work_tile(work, memory))?;
            canvas.state = memory.state;
            let [decision, _, listed, skipped] = memory.told;
            for i in (skipped..listed).filter(|&i| decision == 2 && memory.shown[i]) {
                accepted(library::paint_layer(work, memory.list.ids[i], canvas))?;
                seen(canvas);
            }
            std::mem::swap(&mut work.queue, &mut memory.next);
        }
        Ok(())
    }
}

/// The numbers of planes by their bits, one plane behind the other.
pub fn bits<'a>(planes: impl IntoIterator<Item = &'a f32>) -> Vec<u64> {
    planes.into_iter().map(|number| number.to_bits().into()).collect()
}

/// What both sides go through.
pub fn task(row: &Row) -> Task<'_> {
    Task::Row { words: &row.words, records: &row.records, tiles: row.tiles }
}

/// A line for a row.
fn line(bench: &mut Bench, name: &str, row: &Row, answers: &[u64]) {
    let mut ours = Ours::new(row);
    let ours = || {
        let result = black_box(&mut ours).run(|canvas| {
            black_box(canvas);
        });
        assert_eq!(result, Ok(()));
    };
    bench.beside(name, 1, None, task(row), answers, ours);
}

/// How many layers are painted stands behind a row's name.
pub fn print(bench: &mut Bench) {
    for (tiles, segments, rule) in [(16, 128, 0), (64, 512, 0), (64, 512, 1), (256, 512, 0), (4095, 512, 0)] {
        let row = load(Asked { seed: 0, tiles, segments }, rule);
        let rule = ["NonZero", "EvenOdd"][rule as usize];
        print_row(bench, &format!("row: {tiles} tiles, {segments} segments, {rule}"), &row);
    }
    print_row(bench, "row: 8 tiles, 8 layers, 16 segments each", &dense(16));
    print_row(bench, "row: 8 tiles, 8 layers, 64 segments each", &dense(64));
    let random = &mut Random::new(2);
    for (layers, alpha, name) in
        [(4, 0.5, "translucent"), (32, 0.5, "translucent"), (128, 0.5, "translucent"), (32, 1.0, "opaque")]
    {
        print_row(bench, &format!("row: 32 tiles, {layers} {name}"), &bands(random, draws(layers, alpha)));
    }
    print_row(bench, "row: 32 tiles, 64 with clips", &bands(random, clips(64)));
    for number in 0..6 {
        let row = part(number);
        print_row(bench, &format!("a real plate, row {number}: 20 tiles, {} segments", row.words.len()), &row);
    }
}

fn print_row(bench: &mut Bench, name: &str, row: &Row) {
    let mut planes = Vec::new();
    assert_eq!(Ours::new(row).run(|canvas| planes.extend(bits(&canvas.plane))), Ok(()));
    line(bench, &format!("{name}, {} painted", planes.len() / 256), row, &planes);
}

/// Rows with no tile, and all segments left of it.
pub fn print_openings(bench: &mut Bench) {
    for (layers, each) in [(8, 16), (64, 16), (200, 4)] {
        let row = left_of(layers, each);
        let mut ours = Ours::new(&row);
        assert_eq!(ours.run(|_| ()), Ok(()));
        let carries = carries(&ours.work.queue, ours.memory.state.counts[0]);
        let told = |carry: &Carry| [carry.id.into()].into_iter().chain(carry.cover.map(|byte| byte as u64));
        let answers: Vec<u64> = carries.iter().flat_map(told).collect();
        line(bench, &format!("opening: {layers} layers, {each} segments each"), &row, &answers);
    }
}
