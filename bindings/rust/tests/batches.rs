//! Tiles in batches: each gives what single calls give, whatever the batches' sizes; frames, refusals, threads.

#[path = "../examples/support/mod.rs"]
mod support;

mod stored;

use std::iter;

use support::{
    driven::{self, Driven, Tile, FRAME},
    job::Job,
    plates::{self, draw},
};
use tile_rows::{
    settle, Batch, BatchEnd, BatchTile, CachedTile, Color, Decision, Fields, FillRule, Frame, Layer, LayerTable,
    PixelSegment, Plane, Plate, Refusal, Row, Style,
};

const WHITE: Color = Color { r: 1.0, g: 1.0, b: 1.0, a: 1.0 };

fn edge(layer_id: u32, tile_x: i16, local_x: u8, cover: i8) -> Vec<PixelSegment> {
    let segment = |local_y| {
        let fields = Fields { layer_id, tile_x, tile_y: 0, local_x, local_y, double_area_multiplier: 32, cover };
        PixelSegment::new(fields).unwrap()
    };
    (0..16).map(segment).collect()
}

fn solid(id: u32) -> Layer {
    Layer::draw(id, Style::solid(WHITE))
}

/// A layer from the left of tile 0 to the middle of tile 2.
fn example() -> Vec<PixelSegment> {
    [edge(1, 0, 0, 16), edge(1, 2, 8, -16)].concat()
}

/// The line of the row program.
fn line(tile: &BatchTile<'_>) -> String {
    let octets: u32 = tile.painted().map(|layer| layer.mark.octets()).sum();
    let BatchTile { tile: number, decision, listed, shown, carried, .. } = tile;
    format!("{number} {} {listed} {shown} {octets} {carried}", decision.word())
}

/// A call that is accepted: how many tiles it worked, and why it ended.
fn work_tiles(
    row: &mut Row<'_>,
    tiles: usize,
    kept: Option<&mut [CachedTile]>,
    batch: &mut Batch,
) -> Result<(usize, BatchEnd), Refusal> {
    let end = row.work_tiles(tiles, &FRAME, kept, batch)?;
    Ok((batch.tiles().len(), end))
}

/// The layers to mix, by a tile's list.
fn mixed(tile: &Tile) -> Vec<u32> {
    let Decision::Solid { before, .. } = tile.decision else { return Vec::new() };
    tile.list.iter().filter(|entry| entry.listed.is_shown()).skip(before).map(|entry| entry.listed.id).collect()
}

/// A tile of a batch is the one that single calls gave, each plane bit by bit.
fn check_tile(tile: &BatchTile<'_>, single: &Tile, told: &str) {
    assert_eq!((tile.tile, tile.decision, tile.listed), (single.tile, single.decision, single.list.len()), "{told}");
    let passed_over = single.list.iter().filter(|entry| entry.listed.is_passed_over).count();
    assert_eq!((tile.passed_over, tile.shown), (passed_over, single.shown()), "{told}");
    assert!(tile.mixed().eq(mixed(single)), "{told}, tile {}", tile.tile);
    assert_eq!(tile.carried, single.carries.len(), "{told}, tile {}", tile.tile);
    let bits = |plane: &Plane| plane.as_numbers().map(f32::to_bits);
    let ours: Vec<_> = tile.painted().map(|layer| (layer.id, layer.mark, bits(layer.plane))).collect();
    let painted = single.list.iter().filter_map(|entry| Some((entry.listed.id, entry.painted.as_ref()?)));
    let wanted: Vec<_> = painted.map(|(id, (mark, plane))| (id, *mark, bits(plane))).collect();
    assert!(ours == wanted, "{told}, tile {}: the painted layers", tile.tile);
}

/// A job's row in batches of these sizes, beside single calls and what the row program prints.
fn check_job(
    told: &str,
    job: &Job,
    driven: &Driven,
    lines: &[&str],
    batch: &mut Batch,
    size: &mut dyn FnMut() -> usize,
) {
    let (segments, table) = (job.segments().unwrap(), job.table());
    let mut row = match Row::open(&segments, &table, job.row, job.from..job.to) {
        Ok(row) => row,
        Err(refusal) => return assert_eq!(Some(refusal), driven.refusal, "{told}"),
    };
    let (mut singles, mut lines) = (driven.tiles.iter(), lines.iter());
    let refusal = loop {
        let due = (job.due().end - row.next_tile()).max(0) as usize;
        let asked = size().min(due);
        let end = match row.work_tiles(asked, &FRAME, None, batch) {
            Err(refusal) => break Some(refusal),
            Ok(end) => end,
        };
        let mut last = None;
        for tile in batch.tiles() {
            let single = singles.next().expect("no more tiles than single calls work");
            check_tile(&tile, single, told);
            assert_eq!(lines.next(), Some(&&line(&tile)[..]), "{told}: the row program's line");
            last = Some(single);
        }
        let worked = batch.tiles().len();
        match end {
            BatchEnd::Asked => assert_eq!(worked, asked, "{told}"),
            BatchEnd::RowEnd => assert!(worked < asked && row.next_tile() == row.tiles().end, "{told}"),
            BatchEnd::NoRoom => assert!(0 < worked && worked < asked, "{told}"),
            BatchEnd::NextRefused(refusal) => assert_eq!(Some(refusal), driven.refusal, "{told}"),
        }
        if worked == asked && worked == due {
            break None;
        }
        let single = last.expect("a tile was worked");
        assert!(row.carries().eq(single.carries.iter().copied()), "{told}: carries");
        assert!(row.incoming().eq(single.incoming.iter().copied()), "{told}: what came in");
        assert_eq!(row.listed().len(), 0, "{told}: a batch leaves no list");
    };
    assert_eq!((refusal, singles.len()), (driven.refusal, 0), "{told}");
}

/// Every job file in batches of one tile, of random sizes, and as large as 128 planes, one plane and 600 make them.
#[test]
fn each_job_gives_what_the_row_program_prints() {
    let mut batches = [Batch::new(), Batch::with_planes(1), Batch::with_planes(600), Batch::with_planes(0)];
    let (mut state, mut jobs) = (1, 0);
    for (name, text, printed) in stored::jobs() {
        let Ok(job) = Job::read(&text) else { continue };
        let driven = driven::drive(&job, &job.segments().unwrap());
        let lines: Vec<&str> = printed.lines().skip(1).collect();
        jobs += 1;
        let check = |told: &str, batch: &mut Batch, size: &mut dyn FnMut() -> usize| {
            check_job(&format!("{name}, {told}"), &job, &driven, &lines, batch, size);
        };
        check("one tile", &mut batches[0], &mut || 1);
        for _ in 0..4 {
            check("random sizes", &mut batches[0], &mut || 1 + draw(&mut state) as usize % 9);
        }
        for batch in &mut batches {
            check("as many as there are planes", batch, &mut || usize::MAX);
        }
    }
    assert!(jobs > 90, "{jobs} job files are read");
}

/// Layers of every kind for a made plate: opaque, translucent, clips, clipped; some are unchanged.
fn any_table(state: &mut u32) -> LayerTable {
    let layer = |id| {
        let style = Style::solid(Color { a: if draw(state).is_multiple_of(2) { 1.0 } else { 0.5 }, ..WHITE });
        let layer = match draw(state) % 4 {
            0 => Layer::clip(id, draw(state) % 4),
            1 => Layer::draw(id, Style { is_clipped: true, ..style }),
            _ => Layer::draw(id, style),
        };
        let rule = if draw(state).is_multiple_of(2) { FillRule::NonZero } else { FillRule::EvenOdd };
        Layer { rule, is_unchanged: !draw(state).is_multiple_of(3), ..layer }
    };
    LayerTable::new(&(0..8).map(layer).collect::<Vec<_>>())
}

/// Stands for a tile's display bytes: they hang on all that is mixed.
fn bytes(bottom: Color, mixed: impl Iterator<Item = u32>) -> [u8; 4] {
    let sum = mixed.fold(bottom.r as u32, |sum, id| sum * 31 + id + 1);
    sum.to_le_bytes()
}

/// Rows of a made plate over three frames, by single calls and in batches, with cached tiles: the same decisions, bytes
/// and settlings. The row begins at tile 3, and so do the cached tiles.
#[test]
fn frames_with_cached_tiles() {
    let segments = plates::made(5, 30, 12);
    let (plate, mut batch, mut state) = (Plate::new(&segments), Batch::with_planes(4), 9);
    let (mut words, mut kept_tiles, mut mixes) = ([0; 3], 0, 0);
    for j in 0..30 {
        let mut kept = [[CachedTile::default(); 9]; 2];
        for previous_clear in [None, Some(WHITE), Some(WHITE)] {
            let (table, frame) = (any_table(&mut state), Frame { clear: WHITE, previous_clear });
            let open = || Row::open(plate.row(j), &table, j as i32, 3..12).unwrap();
            let (mut single, mut batched) = (open(), open());
            let [ours, theirs] = &mut kept;
            loop {
                let size = 1 + draw(&mut state) as usize % 6;
                let end = batched.work_tiles(size, &frame, Some(ours), &mut batch).unwrap();
                for tile in batch.tiles() {
                    let place = tile.tile as usize - 3;
                    let worked = driven::work_in(&mut single, tile.tile, &frame, Some(&mut theirs[place])).unwrap();
                    check_tile(&tile, &worked, "frames");
                    words[["none", "solid", "paint"].iter().position(|&word| word == tile.decision.word()).unwrap()] +=
                        1;
                    mixes += usize::from(tile.mixed().len() > 0);
                    if let Decision::Solid { bottom, .. } = tile.decision {
                        let settled = settle(Some(&mut ours[place]), bytes(bottom, tile.mixed()));
                        assert_eq!(
                            settled,
                            single.settle(Some(&mut theirs[place]), bytes(bottom, mixed(&worked).into_iter()))
                        );
                        kept_tiles += usize::from(settled == Ok(tile_rows::Settled::Keep));
                    }
                }
                if end == BatchEnd::RowEnd {
                    break;
                }
            }
            assert_eq!((ours, batched.next_tile()), (theirs, 12));
        }
    }
    assert!(words.iter().all(|&count| count > 20) && kept_tiles > 5 && mixes > 20, "{words:?} {kept_tiles} {mixes}");
}

#[test]
fn a_refusal_in_the_middle_ends_the_batch_before_it() {
    let (segments, table) = ([example(), edge(2, 2, 0, 16)].concat(), LayerTable::new(&[solid(1)]));
    let mut row = Row::open(&segments, &table, 0, 0..4).unwrap();
    let mut batch = Batch::new();
    assert_eq!(batch.tiles().len(), 0);
    let ended = BatchEnd::NextRefused(Refusal::Missing);
    assert_eq!(work_tiles(&mut row, 9, None, &mut batch), Ok((2, ended)), "the table has no layer 2");
    assert_eq!(batch.tiles().map(|tile| tile.decision.word()).collect::<Vec<_>>(), ["paint", "solid"]);
    assert_eq!(row.next_tile(), 2);
    let carries: Vec<_> = row.carries().collect();
    assert_eq!(row.work_tiles(9, &FRAME, None, &mut batch), Err(Refusal::Missing));
    assert_eq!(batch.tiles().len(), 0);
    assert_eq!((row.next_tile(), row.carries().collect::<Vec<_>>()), (2, carries));
    assert_eq!(row.work(2, &FRAME, None), Err(Refusal::Missing), "a single call says the same");
    assert_eq!(row.paint(1, &mut Plane::new()).unwrap().octets(), 32, "tile 1 is still the one just worked");
}

#[test]
fn a_damaged_tag_is_mended_and_the_row_used_on() {
    let (segments, table) = (example(), LayerTable::new(&[solid(1)]));
    let mut row = Row::open(&segments, &table, 0, 0..4).unwrap();
    let mut batch = Batch::new();
    let mut kept = [CachedTile::default(); 4];
    kept[1] = CachedTile([4, 1, 2, 3, 4, 5, 6, 7]);
    let ended = BatchEnd::NextRefused(Refusal::Tag);
    assert_eq!(work_tiles(&mut row, 4, Some(&mut kept), &mut batch), Ok((1, ended)));
    let before = kept;
    assert_eq!(row.work_tiles(4, &FRAME, Some(&mut kept), &mut batch), Err(Refusal::Tag));
    assert_eq!((kept, row.next_tile()), (before, 1), "a refused call leaves the bytes");
    kept[1] = CachedTile::default();
    assert_eq!(work_tiles(&mut row, 4, Some(&mut kept), &mut batch), Ok((3, BatchEnd::RowEnd)));
    assert_eq!(kept.map(|tile| tile.layer_count()), [Some(1), Some(1), Some(1), Some(0)]);
}

/// The end of the row is told apart from nothing done: all tiles that are asked for, none asked for, more than there are.
#[test]
fn ends_are_told_apart() {
    let (segments, table) = (example(), LayerTable::new(&[solid(1)]));
    let mut row = Row::open(&segments, &table, 0, 0..4).unwrap();
    let mut batch = Batch::new();
    assert_eq!(work_tiles(&mut row, 0, None, &mut batch), Ok((0, BatchEnd::Asked)));
    assert_eq!(work_tiles(&mut row, 1, None, &mut batch), Ok((1, BatchEnd::Asked)));
    assert_eq!(work_tiles(&mut row, 3, None, &mut batch), Ok((3, BatchEnd::Asked)), "it ends with the row");
    let incoming: Vec<_> = row.incoming().collect();
    for tiles in [1, 9, usize::MAX] {
        assert_eq!(work_tiles(&mut row, tiles, None, &mut batch), Ok((0, BatchEnd::RowEnd)));
    }
    assert_eq!(work_tiles(&mut row, 0, None, &mut batch), Ok((0, BatchEnd::Asked)), "nothing is asked for");
    assert!(row.incoming().eq(incoming) && row.next_tile() == 4, "a batch of no tile leaves the row");
    let mut row = Row::open(&segments, &table, 0, 0..4).unwrap();
    assert_eq!(work_tiles(&mut row, 5, None, &mut batch), Ok((4, BatchEnd::RowEnd)), "more than the row has");
}

#[test]
fn cached_tiles_that_are_too_few() {
    let (segments, table) = (example(), LayerTable::new(&[solid(1)]));
    let mut row = Row::open(&segments, &table, 0, 0..4).unwrap();
    let (mut batch, mut kept) = (Batch::new(), [CachedTile::default(); 3]);
    assert_eq!(work_tiles(&mut row, 2, Some(&mut kept), &mut batch), Ok((2, BatchEnd::Asked)));
    assert_eq!(work_tiles(&mut row, 4, Some(&mut kept), &mut batch), Ok((1, BatchEnd::NoRoom)));
    let before = kept;
    for kept in [&mut kept[..], &mut { before }[..1], &mut []] {
        assert_eq!(work_tiles(&mut row, 1, Some(kept), &mut batch), Ok((0, BatchEnd::NoRoom)));
    }
    assert_eq!((kept, row.next_tile()), (before, 3));
    assert_eq!(work_tiles(&mut row, 0, Some(&mut kept), &mut batch), Ok((0, BatchEnd::Asked)), "nothing is asked for");
    assert_eq!(work_tiles(&mut row, 1, None, &mut batch), Ok((1, BatchEnd::Asked)));
    assert_eq!(work_tiles(&mut row, 1, Some(&mut kept), &mut batch), Ok((0, BatchEnd::RowEnd)), "which comes first");
}

/// Covers that grow too large in tile 1, and 257 layers in tile 1.
#[test]
fn other_refusals_in_the_middle() {
    let high: Vec<PixelSegment> = (0..8).flat_map(|_| edge(1, 1, 0, 16)).collect();
    let crowd: Vec<PixelSegment> = (0..257).flat_map(|id| edge(id, 1, 0, 1)).collect();
    let table = LayerTable::new(&(0..257).map(solid).collect::<Vec<_>>());
    for (segments, refusal) in [(high, Refusal::Covers), (crowd, Refusal::Layers)] {
        let mut row = Row::open(&segments, &table, 0, 0..4).unwrap();
        let mut batch = Batch::new();
        assert_eq!(work_tiles(&mut row, 4, None, &mut batch), Ok((1, BatchEnd::NextRefused(refusal))));
        assert_eq!(row.work_tiles(4, &FRAME, None, &mut batch), Err(refusal));
    }
}

/// Eight layers of a table of eight: a tile needs eight free planes, not 256.
#[test]
fn a_tile_needs_as_many_planes_as_the_table_has_layers() {
    let layers = |id| Layer::draw(id, Style::solid(Color { a: 0.5, ..WHITE }));
    let table = LayerTable::new(&(0..8).map(layers).collect::<Vec<_>>());
    let segments: Vec<PixelSegment> = (0..6).flat_map(|tile| (0..8).flat_map(move |id| edge(id, tile, 3, 1))).collect();
    for (planes, sizes) in [(1, vec![1; 6]), (8, vec![1; 6]), (9, vec![2; 3]), (25, vec![4, 2]), (41, vec![6])] {
        let mut row = Row::open(&segments, &table, 0, 0..6).unwrap();
        let mut batch = Batch::with_planes(planes);
        for (at, &size) in sizes.iter().enumerate() {
            let end = if at + 1 == sizes.len() { BatchEnd::RowEnd } else { BatchEnd::NoRoom };
            assert_eq!(work_tiles(&mut row, 7, None, &mut batch), Ok((size, end)), "{planes} planes, batch {at}");
        }
    }
}

/// Three tiles of 256 translucent layers: each fills all planes that a tile can use.
#[test]
fn tiles_of_256_layers() {
    let layers = |id| Layer::draw(id, Style::solid(Color { a: 0.5, ..WHITE }));
    let table = LayerTable::new(&(0..256).map(layers).collect::<Vec<_>>());
    let segments: Vec<PixelSegment> =
        (0..3).flat_map(|tile| (0..256).flat_map(move |id| edge(id, tile, 3, 1))).collect();
    for (planes, batches) in [(0, 3), (1, 3), (32, 3), (256, 3), (257, 2), (513, 1)] {
        let mut row = Row::open(&segments, &table, 0, 0..3).unwrap();
        let mut batch = Batch::with_planes(planes);
        let mut sizes = Vec::new();
        let mut end = BatchEnd::NoRoom;
        while end == BatchEnd::NoRoom {
            end = row.work_tiles(usize::MAX, &FRAME, None, &mut batch).unwrap();
            assert!(batch.tiles().all(|tile| tile.painted().map(|layer| layer.id).eq(0..256)));
            sizes.push(batch.tiles().len());
        }
        assert_eq!(end, BatchEnd::RowEnd);
        assert_eq!((sizes.len(), sizes.iter().sum::<usize>()), (batches, 3), "{planes} planes: {sizes:?}");
    }
}

/// Batches and single calls take turns; the last tile of a batch is painted on, by any layer of the table.
#[test]
fn batches_and_single_calls_take_turns() {
    let segments = plates::made(21, 20, 16);
    let (plate, mut state, mut batch) = (Plate::new(&segments), 4, Batch::new());
    for j in 0..20 {
        let table = any_table(&mut state);
        let open = || Row::open(plate.row(j), &table, j as i32, 0..16).unwrap();
        let (mut single, mut row) = (open(), open());
        while row.next_tile() < 16 {
            if draw(&mut state).is_multiple_of(2) {
                let tile = row.next_tile();
                assert_eq!(row.work(tile, &FRAME, None), single.work(tile, &FRAME, None));
                assert!(row.listed().eq(single.listed()));
            } else {
                assert!(work_tiles(&mut row, 1 + draw(&mut state) as usize % 4, None, &mut batch).is_ok());
                for tile in batch.tiles() {
                    check_tile(&tile, &driven::work_in(&mut single, tile.tile, &FRAME, None).unwrap(), "turns");
                }
                let mut planes = [Plane::new(), Plane::new()];
                assert_eq!(row.paint_shown(&mut planes[0], |_, _, _| panic!("a batch leaves no list")), Ok(()));
                for layer in 0..8 {
                    let marks = [row.paint(layer, &mut planes[0]), single.paint(layer, &mut planes[1])];
                    assert_eq!((marks[0], &planes[0]), (marks[1], &planes[1]));
                }
            }
            assert!(row.carries().eq(single.carries()) && row.incoming().eq(single.incoming()));
        }
    }
}

/// P7: the clipped draw lacks its clip: mark 0, its plane written.
#[test]
fn a_draw_that_lacks_its_clip() {
    let clipped = Style { is_clipped: true, ..Style::solid(WHITE) };
    let table = LayerTable::new(&[Layer::clip(1, 1), Layer::clip(2, 5), Layer::draw(3, clipped)]);
    let segments = [edge(1, -1, 0, 8), edge(2, -1, 0, 8), edge(3, -1, 0, 16)].concat();
    let mut batch = Batch::default();
    assert!(work_tiles(&mut Row::open(&segments, &table, 0, 0..1).unwrap(), 1, None, &mut batch).is_ok());
    let tile = batch.tiles().next().unwrap();
    let painted: Vec<_> = tile.painted().map(|layer| (layer.id, layer.plane.at(7, 7), layer.mark.0)).collect();
    assert_eq!(painted, [(1, 0.5, 0), (2, 0.5, 0), (3, 1.0, 0)]);
}

#[test]
fn rows_on_several_threads_give_what_one_thread_gives() {
    fn is_send<T: Send>() {}
    is_send::<(Row<'static>, Batch)>();
    let segments = plates::made(7, 40, 12);
    let one = plates::worked(&segments, 40, 0..12, 1).unwrap();
    let paints = one.iter().flatten().filter(|tile| tile.decision == Decision::Paint).count();
    assert!(one.len() == 40 && paints > 100, "the plate has tiles to paint: {paints}");
    for threads in [2, 3, 8] {
        assert_eq!(plates::worked(&segments, 40, 0..12, threads).unwrap(), one, "{threads} threads");
    }
    // Single calls give the same.
    let (plate, table) = (Plate::new(&segments), plates::table());
    for (j, told) in one.iter().enumerate() {
        let mut row = Row::open(plate.row(j), &table, j as i32, 0..12).unwrap();
        for told in told {
            let single = driven::work(&mut row, told.tile).unwrap();
            let numbers = (single.decision, single.list.len(), single.shown(), single.octets());
            assert_eq!((told.decision, told.listed, told.shown, told.octets), numbers);
        }
    }
}

/// A row and its batch move to another thread between two batches, and the planes come back.
#[test]
fn a_row_and_a_batch_move_to_another_thread() {
    let (segments, table) = (example(), LayerTable::new(&[solid(1)]));
    let mut row = Row::open(&segments, &table, 0, 0..4).unwrap();
    let mut batch = Batch::new();
    assert!(work_tiles(&mut row, 1, None, &mut batch).is_ok());
    let batch = std::thread::scope(|scope| {
        let moved = move || {
            assert!(work_tiles(&mut row, 3, None, &mut batch).is_ok());
            batch
        };
        scope.spawn(moved).join().unwrap()
    });
    let words: Vec<_> = batch.tiles().map(|tile| (tile.tile, tile.decision.word())).collect();
    assert_eq!(words, [(1, "solid"), (2, "paint"), (3, "solid")]);
    let painted = batch.tiles().flat_map(|tile| tile.painted());
    assert!(painted.map(|layer| (layer.id, layer.plane.at(0, 0))).eq(iter::once((1, 1.0))));
}
