//! Rows by single calls: frames with cached tiles, refusals after which a row is used on, a row that moves to a thread.

#[path = "../examples/support/mod.rs"]
mod support;

use support::plates;
use tile_rows::{
    CachedTile, Color, Cover, Decision, Fields, Fill, Frame, Func, Layer, LayerTable, Mark, PixelSegment, Plane, Plate,
    Refusal, Row, Settled, Style, TileList,
};

const BLACK: Color = Color { r: 0.0, g: 0.0, b: 0.0, a: 1.0 };
const WHITE: Color = Color { r: 1.0, g: 1.0, b: 1.0, a: 1.0 };
const FIRST: Frame = Frame { clear: WHITE, previous_clear: None };
const SECOND: Frame = Frame { clear: WHITE, previous_clear: Some(WHITE) };

fn edge(layer_id: u32, tile_x: i16, local_x: u8, cover: i8) -> Vec<PixelSegment> {
    let segment = |local_y| {
        let fields = Fields { layer_id, tile_x, tile_y: 0, local_x, local_y, double_area_multiplier: 32, cover };
        PixelSegment::new(fields).unwrap()
    };
    (0..16).map(segment).collect()
}

fn solid(id: u32) -> Layer {
    Layer::draw(id, Style::solid(BLACK))
}

/// The row of the scope's example: a layer from the left of tile 0 to the middle of tile 2.
fn example() -> Vec<PixelSegment> {
    [edge(1, 0, 0, 16), edge(1, 2, 8, -16)].concat()
}

/// The words of the decisions of a frame, and what settling says where a tile is solid.
fn frame(frame: &Frame, layers: &[Layer], cached: &mut [CachedTile]) -> Vec<(&'static str, Option<Settled>)> {
    let (segments, table) = (example(), LayerTable::new(layers));
    let mut row = Row::open(&segments, &table, 0, 0..4).unwrap();
    let mut told = Vec::new();
    for tile in row.tiles() {
        let kept = &mut cached[tile as usize];
        let decision = row.work(tile, frame, Some(kept)).unwrap().decision;
        let settled = match decision {
            // Of these layers one colour shows: the layer's or the clear colour.
            Decision::Solid { bottom, .. } => {
                Some(row.settle(Some(kept), bottom.numbers().map(|number| (number * 255.0) as u8)).unwrap())
            }
            _ => None,
        };
        told.push((decision.word(), settled));
    }
    told
}

#[test]
fn two_frames_with_cached_tiles() {
    let mut cached = [CachedTile::default(); 4];
    let first = frame(&FIRST, &[solid(1)], &mut cached);
    let write = Some(Settled::Write);
    assert_eq!(first, [("paint", None), ("solid", write), ("paint", None), ("solid", write)]);
    assert_eq!(cached.map(|tile| tile.layer_count()), [Some(1), Some(1), Some(1), Some(0)]);
    assert_eq!(cached.map(|tile| tile.solid_color()), [None, Some([0, 0, 0, 255]), None, Some([255; 4])]);

    // The same frame again, with the layer unchanged: every tile stays.
    let kept = cached;
    let unchanged = Layer { is_unchanged: true, ..solid(1) };
    assert_eq!(frame(&SECOND, &[unchanged], &mut cached), [("none", None); 4]);
    assert_eq!(cached, kept);

    // With the layer changed: its tiles are worked anew; of the solid ones the bytes are the same, and so are kept.
    let keep = Some(Settled::Keep);
    let again = frame(&SECOND, &[solid(1)], &mut cached);
    assert_eq!(again, [("paint", None), ("solid", keep), ("paint", None), ("none", None)]);
}

#[test]
fn a_refused_row_is_used_on() {
    let (segments, table) = (example(), LayerTable::new(&[solid(1)]));
    let mut row = Row::open(&segments, &table, 0, 0..4).unwrap();
    let mut plane = Plane::new();
    assert_eq!(row.paint(1, &mut plane), Err(Refusal::Tile), "no tile was worked");
    assert_eq!(row.work(1, &FIRST, None), Err(Refusal::Tile), "tile 0 is the next");
    assert_eq!((row.next_tile(), row.listed().len(), row.carries().len()), (0, 0, 0));

    let mut damaged = CachedTile([4, 1, 2, 3, 4, 5, 6, 7]);
    assert_eq!(row.work(0, &FIRST, Some(&mut damaged)), Err(Refusal::Tag));
    assert_eq!(damaged.0, [4, 1, 2, 3, 4, 5, 6, 7], "a refused call leaves the bytes");

    let worked = row.work(0, &FIRST, None).unwrap();
    assert_eq!((worked.decision.word(), worked.listed), ("paint", 1));
    assert_eq!(row.paint(2, &mut plane), Err(Refusal::Missing), "the table has no layer 2");
    assert_eq!(row.paint(1, &mut plane).unwrap().octets(), 32);
    assert_eq!(row.work(0, &FIRST, None), Err(Refusal::Tile), "tile 0 was worked");
    assert_eq!(row.listed().len(), 1, "the list of tile 0 is still there");
    assert_eq!(row.paint(1, &mut plane).unwrap(), Mark(u32::MAX), "and it can be painted again");
    let carried: Vec<_> = row.carries().map(|carry| (carry.id, carry.cover)).collect();
    assert_eq!(carried, [(1, Cover([16; 16]))]);
    for tile in 1..4 {
        row.work(tile, &FIRST, None).unwrap();
    }
    assert_eq!(row.work(4, &FIRST, None), Err(Refusal::Tile), "the row has no tile 4");
}

#[test]
fn a_layer_that_the_table_lacks() {
    let (segments, table) = ([edge(1, 0, 0, 16), edge(2, 1, 0, 16)].concat(), LayerTable::new(&[solid(1)]));
    let mut row = Row::open(&segments, &table, 0, 0..2).unwrap();
    row.work(0, &FIRST, None).unwrap();
    assert_eq!(row.work(1, &FIRST, None), Err(Refusal::Missing));
    assert_eq!(row.next_tile(), 1);
    assert_eq!(row.paint(1, &mut Plane::new()).unwrap().octets(), 32, "tile 0 is still the one just worked");
}

#[test]
fn openings_that_are_refused() {
    let (segments, table) = (example(), LayerTable::new(&[solid(1)]));
    let opened = |tile_y, tiles| Row::open(&segments, &table, tile_y, tiles).map(|row| row.tiles());
    assert_eq!(opened(0, 0..4), Ok(0..4));
    assert_eq!(opened(2047, 0..4), Err(Refusal::Tile));
    assert_eq!(opened(0, 0..4096), Err(Refusal::Tile));
    assert_eq!(opened(1, 0..4), Err(Refusal::Row));
    let descending = [edge(1, 2, 8, -16), edge(1, 0, 0, 16)].concat();
    assert_eq!(Row::open(&descending, &table, 0, 0..4).map(|_| ()), Err(Refusal::Row));
    let tables = [
        (LayerTable::new(&[solid(2), solid(2)]), Refusal::Table),
        (LayerTable::new(&[Layer::clip(1, 1 << 21)]), Refusal::Table),
        (LayerTable::from_words(vec![0; 8], vec![0.0; 3], 1), Refusal::Room),
    ];
    for (table, refusal) in &tables {
        assert_eq!(table.judge(), Err(*refusal));
        assert_eq!(Row::open(&segments, table, 0, 0..4).map(|_| ()), Err(*refusal));
    }
    let crowd: Vec<PixelSegment> = (0..257).flat_map(|id| edge(id, -1, 0, 1)).collect();
    assert_eq!(Row::open(&crowd, &table, 0, 0..4).map(|_| ()), Err(Refusal::Layers));
    let high: Vec<PixelSegment> = (0..8).flat_map(|_| edge(1, -1, 0, 16)).collect();
    assert_eq!(Row::open(&high, &table, 0, 0..4).map(|_| ()), Err(Refusal::Covers));
}

/// P7: the painter keeps the end of the first clip, so the clipped draw past it lacks its clip: mark 0, its plane
/// written.
#[test]
fn a_draw_that_lacks_its_clip() {
    let clipped = Style { is_clipped: true, ..Style::solid(BLACK) };
    let table = LayerTable::new(&[Layer::clip(1, 1), Layer::clip(2, 5), Layer::draw(3, clipped)]);
    let segments = [edge(1, -1, 0, 8), edge(2, -1, 0, 8), edge(3, -1, 0, 16)].concat();
    let mut row = Row::open(&segments, &table, 0, 0..1).unwrap();
    row.work(0, &FIRST, None).unwrap();
    let mut marks = Vec::new();
    row.paint_shown(&mut Plane::new(), |listed, plane, mark| marks.push((listed.id, plane.at(7, 7), mark.0))).unwrap();
    assert_eq!(marks, [(1, 0.5, 0), (2, 0.5, 0), (3, 1.0, 0)]);
}

/// A row moves to another thread between two tiles.
#[test]
fn a_row_moves_to_another_thread() {
    let (segments, table) = (example(), LayerTable::new(&[solid(1)]));
    let mut row = Row::open(&segments, &table, 0, 0..4).unwrap();
    row.work(0, &FIRST, None).unwrap();
    let word = std::thread::scope(|scope| {
        scope.spawn(move || row.work(1, &FIRST, None).unwrap().decision.word()).join().unwrap()
    });
    assert_eq!(word, "solid");
}

#[test]
fn the_rows_of_a_plate() {
    let segments = plates::made(3, 5, 4);
    let plate = Plate::new(&segments);
    let rows: Vec<&[PixelSegment]> = (0..5).map(|j| plate.row(j)).collect();
    assert_eq!(rows.concat(), segments);
    assert!(rows.iter().enumerate().all(|(j, row)| tile_rows::segment::is_row(row, j as i16)));
    assert!(plate.row(5).is_empty());
    assert!(plate.row(65_536).is_empty() && plate.row(usize::MAX).is_empty(), "no row has such a number");
    assert!(tile_rows::plate::is_in_crop(None, 9) && tile_rows::plate::is_in_crop(Some(2..4), 3));
    assert!(!tile_rows::plate::is_in_crop(Some(2..4), 4));
}

#[test]
fn an_open_row_tells_of_its_layers() {
    let styles = [Fill::Solid(BLACK), Fill::Gradient, Fill::Texture].map(|fill| Style { fill, ..Style::solid(BLACK) });
    assert_eq!(styles.map(|style| style.is_opaque()), [true, false, false]);
    let table = LayerTable::new(&[solid(4), Layer { func: Func::Draw(styles[1]), is_unchanged: true, ..solid(6) }]);
    let segments = [edge(4, -1, 0, 16), edge(6, 0, 3, 8)].concat();
    let mut row = Row::open(&segments, &table, 0, 0..1).unwrap();
    row.work(0, &FIRST, None).unwrap();
    let told: Vec<_> = row.listed().map(|one| (one.id, one.cover.0[0], one.has_segments, one.is_changed)).collect();
    assert_eq!(told, [(4, 16, false, true), (6, 0, true, false)]);
    assert!(row.listed().all(|one| one.is_shown()));
    assert_eq!(row.incoming().map(|carry| carry.id).collect::<Vec<_>>(), [4]);
    assert_eq!(row.carries().map(|carry| carry.id).collect::<Vec<_>>(), [4, 6]);
}

/// The rows of a made plate by works, and by listings with all lists decided afterwards, the last one first.
#[test]
fn listing_and_deciding_is_working() {
    let segments = plates::made(11, 12, 10);
    let layers: Vec<Layer> = (0..8).map(|id| Layer { is_unchanged: id % 3 == 0, ..solid(id) }).collect();
    let (plate, table) = (Plate::new(&segments), LayerTable::new(&layers));
    let mut decided = 0;
    for j in 0..12 {
        let open = || Row::open(plate.row(j), &table, j as i32, 0..10).unwrap();
        let (mut worked, mut listed) = (open(), open());
        let (mut kept, mut works) = ([CachedTile::default(); 10], Vec::new());
        let mut lists = vec![TileList::new(); 10];
        let mut planes = [Plane::new(), Plane::new()];
        for tile in worked.tiles() {
            let work = worked.work(tile, &SECOND, Some(&mut kept[tile as usize])).unwrap();
            works.push((work, worked.listed().collect::<Vec<_>>()));
            let list = &mut lists[tile as usize];
            listed.list(tile, list).unwrap();
            assert_eq!((list.tile(), list.listed().len(), listed.listed().len()), (tile, work.listed, 0));
            assert_eq!(listed.carries().collect::<Vec<_>>(), worked.carries().collect::<Vec<_>>());
            // A tile may be painted before it is decided.
            for one in list.listed() {
                let marks = [worked.paint(one.id, &mut planes[0]), listed.paint(one.id, &mut planes[1])];
                assert_eq!((marks[0], &planes[0]), (marks[1], &planes[1]));
            }
        }
        for (tile, (work, layers)) in works.iter().enumerate().rev() {
            let mut cached = CachedTile::default();
            assert_eq!(listed.decide(&mut lists[tile], &SECOND, Some(&mut cached)).unwrap(), *work);
            assert_eq!((lists[tile].listed().collect::<Vec<_>>(), cached), (layers.clone(), kept[tile]));
            decided += 1;
        }
    }
    assert_eq!(decided, 120);
}

#[test]
fn a_refused_deciding_leaves_the_list() {
    let (segments, table) = (example(), LayerTable::new(&[solid(1)]));
    let mut row = Row::open(&segments, &table, 0, 0..4).unwrap();
    let mut list = TileList::default();
    assert_eq!(row.list(1, &mut list), Err(Refusal::Tile), "tile 0 is the next");
    assert_eq!((list.tile(), list.listed().len()), (-1, 0));
    row.list(0, &mut list).unwrap();
    let mut damaged = CachedTile([4, 1, 2, 3, 4, 5, 6, 7]);
    assert_eq!(row.decide(&mut list, &FIRST, Some(&mut damaged)), Err(Refusal::Tag));
    assert_eq!(damaged.0, [4, 1, 2, 3, 4, 5, 6, 7], "a refused call leaves the bytes");
    let other = LayerTable::new(&[solid(2)]);
    let elsewhere = Row::open(&[], &other, 0, 0..4).unwrap();
    assert_eq!(elsewhere.decide(&mut list, &FIRST, None), Err(Refusal::Missing), "this table lacks layer 1");
    assert_eq!(row.decide(&mut list, &FIRST, None).unwrap().decision, Decision::Paint);
    assert!(list.listed().all(|one| one.is_shown() && one.has_segments));
}
