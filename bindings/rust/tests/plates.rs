//! Whole plates: the rows that have segments, all rows in order and on several threads, crops, refusals.

#[path = "../examples/support/mod.rs"]
mod support;

use std::{collections::BTreeMap, num::NonZeroUsize, sync::Mutex};

use support::{driven::FRAME, plates};
use tile_rows::{
    Area, Batch, BatchEnd, Cause, Layer, LayerTable, PixelSegment, Plate, Refusal, Row, RowNumber, RowRefusal, Style,
};

const ROWS: usize = 9;
const TILES: i32 = 7;

fn row_of(number: usize) -> RowNumber {
    RowNumber::try_from(number).unwrap()
}

/// What is told of a tile: its row, its number, its decision's word, and of each painted layer id, mark and coverages.
type Told = (usize, i32, &'static str, Vec<(u32, u32, Vec<u32>)>);

fn told(row: RowNumber, tile: tile_rows::BatchTile<'_>) -> Told {
    let painted = tile.painted().map(|layer| {
        let coverages = layer.plane.rows().flatten().map(f32::to_bits).collect();
        (layer.id, layer.mark.0, coverages)
    });
    (row.index(), tile.tile, tile.decision.word(), painted.collect())
}

/// Each row by its own opening and batches.
fn by_rows(plate: &Plate<'_>, table: &LayerTable, rows: &[usize], tiles: std::ops::Range<i32>) -> Vec<Told> {
    let mut all = Vec::new();
    for &j in rows {
        let mut row = Row::open(plate.row(j), table, j as i32, tiles.clone()).unwrap();
        let mut batch = Batch::new();
        loop {
            let end = row.work_tiles(2, &FRAME, None, &mut batch).unwrap();
            all.extend(batch.tiles().map(|tile| told(row_of(j), tile)));
            if end == BatchEnd::RowEnd {
                break;
            }
        }
    }
    all
}

#[test]
fn a_plate_in_order_and_on_threads() {
    let segments = plates::made(5, ROWS as i16, TILES as i16);
    let (plate, table) = (Plate::new(&segments), plates::table());
    let whole = Area::new(ROWS + 2, TILES);
    let every: Vec<usize> = (0..ROWS + 2).collect();
    let areas = [
        (whole.clone(), every, 0..TILES),
        (whole.clone().cropped(2..5, 3..6), vec![2, 3, 4], 3..6),
        (whole.clone().cropped(8..99, -4..99), vec![8, 9, 10], 0..TILES),
        (whole.clone().cropped(1..2, 50..60), vec![1], TILES..TILES),
        (whole.cropped(4..4, 0..9), vec![], 0..TILES),
    ];
    for (area, rows, tiles) in areas {
        assert_eq!(
            (area.row_numbers().map(RowNumber::index).collect::<Vec<_>>(), area.worked_tiles()),
            (rows.clone(), tiles.clone())
        );
        let wanted = by_rows(&plate, &table, &rows, tiles);
        let mut ours = Vec::new();
        plate.work(&table, &area, &FRAME, |row, tile| ours.push(told(row, tile))).unwrap();
        assert_eq!(ours, wanted);
        for threads in [1, 2, 5] {
            let found = Mutex::new(BTreeMap::<usize, Vec<Told>>::new());
            let threads = NonZeroUsize::new(threads).unwrap();
            let sink = |row: RowNumber, tile: tile_rows::BatchTile<'_>| {
                let one = told(row, tile);
                found.lock().unwrap().entry(row.index()).or_default().push(one);
            };
            plate.work_on(threads, &table, &area, &FRAME, sink).unwrap();
            assert_eq!(
                found.into_inner().unwrap().into_values().flatten().collect::<Vec<_>>(),
                wanted,
                "{threads} threads"
            );
        }
    }
}

#[test]
fn rows_with_segments() {
    let segments: Vec<PixelSegment> =
        plates::made(5, 9, 4).into_iter().filter(|segment| [1, 4, 8].contains(&segment.tile_y())).collect();
    let (plate, table) = (Plate::new(&segments), plates::table());
    let rows: Vec<RowNumber> = plate.rows().collect();
    assert_eq!(rows, [1, 4, 8].map(row_of));
    for row in rows {
        let mut open = plate.open_row(row, &table, 0..4).unwrap();
        assert_eq!((open.number(), open.segments()), (row, plate.row(row.into())));
        let mut worked = 0;
        while let Some(one) = open.work_next(&FRAME, None).unwrap() {
            assert_eq!(one.tile, worked);
            worked += 1;
        }
        assert_eq!((worked, open.next_tile()), (4, 4));
    }
    assert_eq!(Plate::new(&[]).rows().next(), None);
}

/// The first row that is turned down is told, whatever the threads do, and all rows before it are worked.
#[test]
fn a_refused_row() {
    let mut segments = plates::made(5, ROWS as i16, TILES as i16);
    for segment in &mut segments {
        // Layer 7 of the rows 4 and 6 becomes layer 99, which the table lacks.
        let fields = segment.fields();
        if fields.layer_id == 7 && [4, 6].contains(&fields.tile_y) {
            *segment = PixelSegment::new(tile_rows::Fields { layer_id: 99, ..fields }).unwrap();
        }
    }
    let (plate, table, area) = (Plate::new(&segments), plates::table(), Area::new(ROWS, TILES));
    let mut last = None;
    let refused = plate.work(&table, &area, &FRAME, |row, tile| last = Some((row.index(), tile.tile))).unwrap_err();
    assert_eq!(refused, RowRefusal { row: row_of(4), refusal: Refusal::Missing });
    assert_eq!(refused.refusal.cause(), Some(Cause::Missing { layer: 99 }));
    assert_eq!(refused.to_string(), "row 4: refused 8: layer 99 is not in the table");
    assert!(last.is_some_and(|(row, _)| row == 3 || row == 4));
    for threads in [1, 2, 3, 8] {
        let rows = Mutex::new(BTreeMap::<usize, i32>::new());
        let sink =
            |row: RowNumber, _: tile_rows::BatchTile<'_>| *rows.lock().unwrap().entry(row.index()).or_default() += 1;
        let again = plate.work_on(NonZeroUsize::new(threads).unwrap(), &table, &area, &FRAME, sink).unwrap_err();
        assert_eq!((again, again.refusal.cause()), (refused, refused.refusal.cause()));
        let rows = rows.into_inner().unwrap();
        assert!((0..4).all(|row| rows.get(&row) == Some(&TILES)), "{rows:?}");
    }
}

#[test]
fn row_numbers() {
    assert_eq!((row_of(2_046), RowNumber::LAST.get()), (RowNumber::LAST, 2_046));
    assert_eq!([i32::from(row_of(7)), i16::from(row_of(7)).into()], [7, 7]);
    let refused = [RowNumber::try_from(2_047), RowNumber::try_from(-1), RowNumber::try_from(i32::MIN)];
    assert!(refused.into_iter().all(|row| row == Err(Refusal::Tile)));
    assert!(RowNumber::try_from(65_536usize).is_err() && RowNumber::try_from(u64::MAX).is_err());
    assert_eq!(
        RowNumber::try_from(-1i32).unwrap_err().to_string(),
        "refused 2: the row number is -1, and rows are 0 to 2046"
    );
}

/// A table's records read back, and are marked as unchanged.
#[test]
fn tables() {
    let layers = [
        Layer::clip(3, 9),
        Layer::draw(5, Style::solid(FRAME.clear).clipped()).with_rule(tile_rows::FillRule::EvenOdd),
        Layer::draw(2_097_151, Style { fill: tile_rows::Fill::Texture, ..Style::solid(FRAME.clear) }).unchanged(true),
    ];
    let mut table: LayerTable = layers.into_iter().collect();
    assert_eq!(table.iter().collect::<Vec<_>>(), layers);
    assert_eq!((table.get(5), table.get(4)), (Some(layers[1]), None));
    assert!(table.set_unchanged(5, true) && !table.set_unchanged(4, true));
    assert_eq!(table.get(5), Some(layers[1].unchanged(true)));
    table.set_all_unchanged(false);
    assert!(table.iter().all(|layer| !layer.is_unchanged));
    let text = format!("{table:?}");
    assert!(text.contains("Clip { span: 9 }") && text.contains("EvenOdd") && text.contains("Texture"), "{text}");
    let damaged = LayerTable::from_words(vec![1, 2, 0, 0, 0, 0, 0, 0], vec![0.0; 4], 1);
    assert_eq!((damaged.get(1), damaged.iter().count()), (None, 0));
}
