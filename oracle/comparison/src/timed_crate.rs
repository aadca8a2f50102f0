//! Whole rows through the crate of bindings/rust, beside the exports that it calls (what its types cost) and beside the
//! Rust.

use std::hint::black_box;

use reference::plain::Record;
use tile_rows::{
    exports, four_high, segment, Batch, BatchEnd, BatchTile, Color, FillRule, Frame, LayerTable, Plane, Row as OpenRow,
};

use crate::{
    batch_calls::TOLD,
    builds::Task,
    given::Fields,
    layers::lent,
    library,
    loads::Asked,
    random::Random,
    timed_rows::{bits, task, Ours, CLEAR},
    timed_scenes::{bands, clips, draws, load, plate, Row, Rows},
    timing::Bench,
};

/// What the ratio to the exports should be at most: it is to cost nothing that can be measured.
const AIM: f64 = 1.02;

fn frame() -> Frame {
    Frame { clear: Color::from(CLEAR), previous_clear: None }
}

fn table(records: &[Record]) -> LayerTable {
    let words = lent(records);
    LayerTable::from_words(words.layers, words.colors, words.count)
}

fn open<'a>(row: &'a Row, table: &'a LayerTable) -> OpenRow<'a> {
    OpenRow::open(segment::segments_of(&row.words), table, 0, 0..row.tiles as i32).unwrap()
}

/// The tiles of an opened row in batches, with a look at each.
fn batches(mut row: OpenRow<'_>, batch: &mut Batch, mut seen: impl FnMut(&BatchTile<'_>)) {
    let frame = frame();
    loop {
        let end = row.work_tiles(usize::MAX, &frame, None, batch).unwrap();
        batch.tiles().for_each(|tile| seen(&tile));
        if end == BatchEnd::RowEnd {
            return;
        }
    }
}

/// The row opened, each tile worked and its shown layers painted; how many were.
#[inline(never)]
fn through(row: &Row, table: &LayerTable, plane: &mut Plane) -> usize {
    let (mut painted, frame) = (0, frame());
    let mut open = open(row, table);
    for tile in open.tiles() {
        if open.work(tile, &frame, None).unwrap().decision.word() == "paint" {
            open.paint_shown(plane, |_, plane, _| {
                black_box(plane);
                painted += 1;
            })
            .unwrap();
        }
    }
    painted
}

/// The same in batches, with a look at each tile.
#[inline(never)]
fn in_batches(row: &Row, table: &LayerTable, batch: &mut Batch, seen: impl FnMut(&BatchTile<'_>)) {
    batches(open(row, table), batch, seen);
}

/// A plate in batches, row after row.
#[inline(never)]
fn plate_in_batches(plate: &Rows, table: &LayerTable, batch: &mut Batch, mut seen: impl FnMut(&BatchTile<'_>)) {
    for (tile_y, words) in plate.rows.iter().enumerate() {
        let segments = segment::segments_of(words);
        let row = OpenRow::open(segments, table, tile_y as i32, 0..plate.tiles as i32).unwrap();
        batches(row, batch, &mut seen);
    }
}

/// Each tile, each painted layer and each that is mixed is looked at.
fn look_at(tile: &BatchTile<'_>) {
    for layer in black_box(tile).painted() {
        black_box((layer.id, layer.mark, layer.plane));
    }
    for layer in tile.mixed() {
        black_box(layer);
    }
}

/// The bits of all coverages that the batches paint, and whether a tile mixes colours.
fn answers(row: &Row) -> (Vec<u64>, bool) {
    let (mut planes, mut mixes) = (Vec::new(), false);
    in_batches(row, &table(&row.records), &mut Batch::new(), |tile| {
        tile.painted().for_each(|layer| planes.extend(bits(layer.plane.as_numbers())));
        mixes |= tile.mixed().len() > 0;
    });
    (planes, mixes)
}

/// The exports that `in_batches` comes to, with memory that is made before.
struct Direct {
    table: (Vec<u32>, Vec<f32>, usize),
    queues: [(Vec<u32>, Vec<i8>); 2],
    told: Vec<usize>,
    bottoms: Vec<f32>,
    planes: Vec<f32>,
    painted: Vec<u32>,
}

impl Direct {
    fn new(row: &Row) -> Direct {
        let words = lent(&row.records);
        let queue = || (vec![0; 256], vec![0; 4096]);
        // As `Batch::new` has them: 128, and as many as a tile can use.
        let planes = 127 + words.count.min(256);
        Direct {
            table: (words.layers, words.colors, words.count),
            queues: [queue(), queue()],
            told: vec![0; TOLD * row.tiles],
            bottoms: vec![0.0; 4 * row.tiles],
            planes: vec![0.0; 256 * planes],
            painted: vec![0; 2 * planes],
        }
    }

    /// One call to open the row, and one for each batch.
    #[inline(never)]
    fn run(&mut self, row: &Row) -> usize {
        let Direct { table: (layers, colors, count), queues, told, bottoms, planes, painted } = self;
        let [(a_ids, a_covers), (b_ids, b_covers)] = queues;
        let (mut words, mut counts, tiles) = ([0; 6], [0; 2], row.tiles as i32);
        let number = exports::open_tile_row(
            0,
            0,
            tiles,
            &row.words,
            layers,
            colors,
            *count,
            a_ids,
            a_covers,
            &mut words,
            &mut counts,
        );
        assert_eq!(number, 0);
        let (mut sum, mut queues) = (0, [(a_ids, a_covers), (b_ids, b_covers)]);
        while (words[3] as i32) < tiles {
            let next = words[3] as i32;
            let [(a_ids, a_covers), (b_ids, b_covers)] = &mut queues;
            let mut done = [0; 5];
            let number = exports::work_tiles(
                &mut words,
                &mut counts,
                next,
                (tiles - next) as usize,
                &row.words,
                layers,
                colors,
                *count,
                false,
                &mut [],
                &CLEAR,
                false,
                &[0.0; 4],
                a_ids,
                a_covers,
                b_ids,
                b_covers,
                told,
                bottoms,
                planes,
                painted,
                &mut done,
            );
            assert_eq!(number, 0);
            queues.rotate_left(done[2]);
            sum += look(&told[..TOLD * done[0]], planes, painted);
        }
        sum
    }
}

/// Looks at each tile, each painted layer and each that is mixed of a batch; how many are painted.
fn look(told: &[usize], planes: &[f32], painted: &[u32]) -> usize {
    let (mut used, mut paints) = (0, 0);
    for tile in told.chunks_exact(TOLD) {
        let ends = used + [0, tile[4] - tile[1], tile[4]][black_box(tile)[0]];
        for plane in used..ends {
            if tile[0] == 2 {
                black_box((painted[2 * plane], painted[2 * plane + 1], &planes[256 * plane..256 * plane + 256]));
                paints += 1;
            } else {
                black_box(painted[2 * plane]);
            }
        }
        used = ends;
    }
    paints
}

fn line(bench: &mut Bench, name: &str, row: &Row) {
    let table = table(&row.records);
    let mut plane = Plane::new();
    let mut ours = Ours::new(row);
    let mut painted = 0;
    assert_eq!(ours.run(|_| painted += 1), Ok(()));
    assert_eq!(through(row, &table, &mut plane), painted);
    let exports = || {
        let result = black_box(&mut ours).run(|canvas| {
            black_box(canvas);
        });
        assert_eq!(result, Ok(()));
    };
    let through = || {
        black_box(through(black_box(row), &table, &mut plane));
    };
    bench.line(&format!("crate: {name}, {painted} painted"), 1, Some(AIM), exports, through);
}

fn line_in_batches(bench: &mut Bench, name: &str, row: &Row) {
    let (table, mut batch, mut direct) = (table(&row.records), Batch::new(), Direct::new(row));
    let (planes, mixes) = answers(row);
    let painted = planes.len() / 256;
    assert_eq!(direct.run(row), painted);
    let exports = || {
        black_box(direct.run(black_box(row)));
    };
    let through = || in_batches(black_box(row), &table, &mut batch, look_at);
    let told = if mixes { ", mixing" } else { "" };
    bench.line(&format!("crate in batches: {name}{told}, {painted} painted"), 1, Some(AIM), exports, through);
}

fn line_beside_rust(bench: &mut Bench, name: &str, row: &Row) {
    let (table, mut batch, (planes, _)) = (table(&row.records), Batch::new(), answers(row));
    let through = || in_batches(black_box(row), &table, &mut batch, look_at);
    let name = format!("crate by batches: {name}, {} painted", planes.len() / 256);
    bench.beside(&name, 1, None, task(row), &planes, through);
}

/// A plate beside the Rust, which goes through its rows one after the other, too.
fn line_of_plate(bench: &mut Bench, name: &str, plate: &Rows) {
    let (table, mut batch, mut planes) = (table(&plate.records), Batch::new(), Vec::new());
    plate_in_batches(plate, &table, &mut batch, |tile| {
        tile.painted().for_each(|layer| planes.extend(bits(layer.plane.as_numbers())));
    });
    let name = format!("plate: {} x {} tiles, {name}, {} painted", plate.rows.len(), plate.tiles, planes.len() / 256);
    let task = Task::Plate { rows: &plate.rows, records: &plate.records, tiles: plate.tiles };
    bench.beside(&name, 1, None, task, &planes, || plate_in_batches(black_box(plate), &table, &mut batch, look_at));
}

/// One layer's row of tiles four pixels high.
fn line_four_high(bench: &mut Bench) {
    let mut random = Random::new(3);
    let mut one = |tile_x| Fields {
        layer_id: 1,
        tile_x,
        tile_y: 0,
        local_x: random.below(16) as u8,
        local_y: random.below(4) as u8,
        double_area_multiplier: 16,
        cover: random.pick(&[-1, 1]),
    };
    let words: Vec<u64> = (0..64).map(|tile_x| library::gpu_pack(one(tile_x)).1).collect();
    let segments: Vec<four_high::PixelSegment> =
        words.iter().copied().map(four_high::PixelSegment::from_word).collect();
    let (mut numbers, mut plane) = ([0.0; 64], four_high::Plane::new());
    let exports = || {
        let (mut state, mut cover) = ([0; 6], [0; 4]);
        assert_eq!(exports::gpu_open_layer_row(0, 0, 64, 1, 0, black_box(&words), &mut state, &mut cover), 0);
        for tile in 0..64 {
            assert_eq!(exports::gpu_work_tile(&mut state, &mut cover, tile, &words, &mut numbers), 0);
            black_box(&mut numbers);
        }
    };
    let through = || {
        let mut row = four_high::LayerRow::open(black_box(&segments), 0, 0..64, 1, FillRule::NonZero).unwrap();
        while row.work_next(&mut plane).unwrap().is_some() {
            black_box(&mut plane);
        }
    };
    bench.line("crate: a layer's row, four high, 64 tiles", 1, Some(AIM), exports, through);
}

pub fn print(bench: &mut Bench) {
    for (tiles, segments) in [(16, 128), (64, 512)] {
        line(bench, &format!("{tiles} tiles, {segments} segments"), &load(Asked { seed: 0, tiles, segments }, 0));
    }
    line(bench, "32 tiles, 32 translucent", &bands(&mut Random::new(2), draws(32, 0.5)));
    line_four_high(bench);
    let loads = [(16, 128), (64, 512), (256, 512), (4095, 512)].map(|(tiles, segments)| {
        (format!("{tiles} tiles, {segments} segments"), load(Asked { seed: 0, tiles, segments }, 0))
    });
    let random = &mut Random::new(2);
    let banded = [
        ("32 tiles, 32 opaque".to_string(), bands(random, draws(32, 1.0))),
        ("32 tiles, 32 translucent".to_string(), bands(random, draws(32, 0.5))),
        ("32 tiles, 64 with clips".to_string(), bands(random, clips(64))),
    ];
    loads.iter().chain(&banded).for_each(|(name, row)| line_in_batches(bench, name, row));
    bench.title("Whole rows by the crate, in batches");
    loads.iter().chain(&banded).for_each(|(name, row)| line_beside_rust(bench, name, row));
    bench.title("Whole plates by the crate, in batches");
    for (count, layers, alpha, told) in [
        (64, 8, 0.5, "translucent"),
        (64, 32, 0.5, "translucent"),
        (64, 32, 1.0, "opaque"),
        (1024, 4, 0.5, "translucent"),
    ] {
        let rows = plate(count, draws(layers, alpha), |_| bands(random, draws(layers, alpha)));
        line_of_plate(bench, &format!("{layers} {told}"), &rows);
    }
    let mut seeds = 0..;
    let rows = plate(64, draws(8, 0.5), |_| light(&mut seeds, 64, 1024));
    line_of_plate(bench, "8 translucent, loads", &rows);
}

/// The made load of the next seed that no condition refuses.
fn light(seeds: &mut impl Iterator<Item = u32>, tiles: i64, segments: i64) -> Row {
    let mut loads = seeds.map(|seed| load(Asked { seed, tiles, segments }, 0));
    loads.find(|row| Ours::new(row).work(library::work_tile).is_ok()).unwrap()
}
