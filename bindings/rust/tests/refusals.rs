//! What a refusal says: in the words of the call that was made, with what of that which was lent is the cause.

use tile_rows::{
    four_high, settle, Bounded, CachedTile, Cause, Color, Condition, Cover, Fields, FillRule, Frame, Layer, LayerTable,
    PixelSegment, Plane, Refusal, Revision, Revisions, Row, SegmentSet, Style, TileList,
};

const PLACE: Fields =
    Fields { layer_id: 5, tile_x: 2, tile_y: 0, local_x: 3, local_y: 4, double_area_multiplier: 32, cover: 16 };
const FRAME: Frame = Frame { clear: Color::opaque(0.0, 0.0, 0.0), previous_clear: None };

fn segment(fields: Fields) -> PixelSegment {
    PixelSegment::try_from(fields).unwrap()
}

fn solid(id: u32) -> Layer {
    Layer::draw(id, Style::solid(FRAME.clear))
}

/// Both numbers and words are as wanted.
fn says<T: std::fmt::Debug>(answer: Result<T, Refusal>, text: &str) {
    assert_eq!(answer.unwrap_err().to_string(), text);
}

#[test]
fn packing() {
    let packed = |fields| PixelSegment::new(fields);
    says(
        packed(Fields { layer_id: 1 << 21, ..PLACE }),
        "refused 11: the layer id is 2097152, and a segment holds 0 to 2097151",
    );
    says(
        packed(Fields { layer_id: u32::MAX, ..PLACE }),
        "refused 11: the layer id is 4294967295, and a segment holds 0 to 2097151",
    );
    says(packed(Fields { tile_x: -2, ..PLACE }), "refused 11: tile x is -2, and a segment holds -1 to 4094");
    says(packed(Fields { tile_x: 32_767, ..PLACE }), "refused 11: tile x is 32767, and a segment holds -1 to 4094");
    says(packed(Fields { tile_y: 2_047, ..PLACE }), "refused 11: tile y is 2047, and a segment holds -1 to 2046");
    says(packed(Fields { local_x: 16, ..PLACE }), "refused 11: local x is 16, and a segment holds 0 to 15");
    says(packed(Fields { local_y: 16, ..PLACE }), "refused 11: local y is 16, and a segment holds 0 to 15");
    let text = "refused 11: the double area's multiplier is 64, and a segment holds 0 to 63";
    says(packed(Fields { double_area_multiplier: 64, ..PLACE }), text);
    says(packed(Fields { cover: 32, ..PLACE }), "refused 11: the cover is 32, and a segment holds -32 to 31");
    let low = |fields| four_high::PixelSegment::new(fields);
    says(low(Fields { local_y: 4, ..PLACE }), "refused 11: local y is 4, and a segment holds 0 to 3");
    says(
        low(Fields { tile_y: 8_191, local_y: 0, ..PLACE }),
        "refused 11: tile y is 8191, and a segment holds -1 to 8190",
    );
}

#[test]
fn openings() {
    let table = LayerTable::new(&[solid(5)]);
    let open = |segments: &[PixelSegment], tile_y: i32, tiles: std::ops::Range<i32>| {
        Row::open(segments, &table, tile_y, tiles).map(|row| row.tiles())
    };
    says(open(&[], 2_047, 0..4), "refused 2: the row number is 2047, and rows are 0 to 2046");
    says(open(&[], 0, 3..4_096), "refused 2: the tiles 3..4096 are no range within 0..4095");
    let row = [segment(PLACE), segment(Fields { layer_id: 4, ..PLACE })];
    says(open(&row, 0, 0..4), "refused 3: segment 1 lies before the one that it follows, by tile x and layer");
    says(open(&row[..1], 7, 0..4), "refused 3: segment 0 has tile y 0, which is not the row's");
    let crowd: Vec<_> = (0..257).map(|layer_id| segment(Fields { layer_id, tile_x: -1, ..PLACE })).collect();
    says(open(&crowd, 0, 0..4), "refused 7: there are 257 layers in one place, and 256 are the most");
    let high = [segment(Fields { tile_x: -1, ..PLACE }); 8];
    let text =
        "refused 9: of layer 5 in pixel row 4 the absolute covers, the incoming one included, sum to 128, above 127";
    says(open(&high, 0, 0..4), text);
    let tables = [
        (LayerTable::new(&[solid(2), solid(2)]), "refused 4: record 1, of layer 2: its id is not above the one before"),
        (LayerTable::new(&[Layer::clip(1, 1 << 21)]), "refused 4: record 0, of layer 1: its span is above 2097151"),
        (
            LayerTable::from_words(vec![0; 8], vec![0.0; 3], 1),
            "refused 1: the table counts 1 records, and has words and colours for 0",
        ),
        (
            LayerTable::from_words(vec![0, 0, 0, 0, 0, 0, 16, 0], vec![0.0; 4], 1),
            "refused 4: record 0, of layer 0: its blend mode is above 15",
        ),
    ];
    for (table, text) in tables {
        says(table.judge(), text);
        says(Row::open(&[], &table, 0, 0..4).map(|_| ()), text);
    }
}

#[test]
fn works() {
    let table = LayerTable::new(&[solid(5)]);
    let mut segments: Vec<_> = (0..16).map(|local_y| segment(Fields { local_y, tile_x: 0, ..PLACE })).collect();
    segments.push(segment(Fields { layer_id: 9, tile_x: 1, ..PLACE }));
    let mut row = Row::open(&segments, &table, 0, 0..3).unwrap();
    let (mut plane, mut list) = (Plane::new(), TileList::new());
    says(row.paint(5, &mut plane), "refused 2: no tile of the row was worked or listed yet");
    says(row.work(1, &FRAME, None), "refused 2: tile 1 was asked for, and tile 0 is the next");
    says(row.list(2, &mut list), "refused 2: tile 2 was asked for, and tile 0 is the next");
    says(
        row.work(0, &FRAME, Some(&mut CachedTile([9; 8]))),
        "refused 6: the cached tile's tag is 9, and tags are 0 to 3",
    );
    row.work_next(&FRAME, None).unwrap();
    says(row.paint(4, &mut plane), "refused 8: layer 4 is not in the table");
    let refused = row.work_next(&FRAME, None).unwrap_err();
    assert_eq!((refused.condition(), refused.cause()), (Condition::Missing, Some(Cause::Missing { layer: 9 })));
    says(row.list(1, &mut list), "refused 8: layer 9 is not in the table");
    let mut past = Row::open(&segments[..16], &table, 0, 0..0).unwrap();
    says(past.work(0, &FRAME, None), "refused 2: tile 0 was asked for, and the row's tiles end before tile 0");
    assert_eq!(past.work_next(&FRAME, None), Ok(None));
    let mut high: Vec<_> = (0..8).map(|_| segment(PLACE)).collect();
    high[0] = segment(Fields { tile_x: -1, ..PLACE });
    let mut row = Row::open(&high, &table, 0, 2..3).unwrap();
    let text =
        "refused 9: of layer 5 in pixel row 4 the absolute covers, the incoming one included, sum to 128, above 127";
    says(row.work_next(&FRAME, None), text);
    says(settle(Some(&mut CachedTile([4; 8])), [0; 4]), "refused 6: the cached tile's tag is 4, and tags are 0 to 3");
}

#[test]
fn parts() {
    let part = [segment(PLACE), segment(Fields { layer_id: 6, ..PLACE })];
    let text =
        "refused 9: of layer 5 in pixel row 4 the absolute covers, the incoming one included, sum to 136, above 127";
    says(Cover([120; 16]).carry(&part[..1]), text);
    says(Plane::new().paint_part(&part[..1], &Cover([-120; 16]), FillRule::NonZero), text);

    let begun = |part: &[PixelSegment], slots| SegmentSet::begin(5, 2, 0, &Cover([0; 16]), part, slots);
    says(begun(&part, 2), "refused 3: segment 1 is of layer 6, which is another than was named");
    says(begun(&part[..1], 0), "refused 13: 1 segments were to be held in 0 slots");
    let mut set = begun(&part[..1], 1).unwrap();
    assert!(set.len() == 1 && !set.is_empty() && set.contains(part[0]) && !set.contains(part[1]));
    says(set.take_in(part[1]), "refused 3: segment 0 is of layer 6, which is another than was named");
    let other = segment(Fields { tile_x: 3, ..PLACE });
    says(set.let_out(other), "refused 3: segment 0 lies in tile 3, 0, which is another than was named");
    says(set.let_out(segment(Fields { cover: 1, ..PLACE })), "refused 12: the set holds 1 segments, and no equal one");
    says(set.take_in(part[0]), "refused 13: 2 segments were to be held in 1 slots");
    let mut heavy = SegmentSet::begin(5, 2, 0, &Cover([120; 16]), &[], 1).unwrap();
    says(heavy.take_in(part[0]), text);

    let (zero, one) = (Cover([0; 16]), Cover([1; 16]));
    let bounded = |part: &[PixelSegment], bounds: &[[i8; 2]], low: &Cover, high: &Cover| {
        Bounded::new().bound_part(5, 2, 0, part, bounds, low, high)
    };
    says(bounded(&part, &[[0, 1]], &zero, &one), "refused 1: 2 segments need as many pairs of bounds, and there are 1");
    says(
        bounded(&part, &[[0, 1]; 2], &zero, &one),
        "refused 3: segment 1 is of layer 6, which is another than was named",
    );
    let text = "refused 14: segment 0 has the bounds 2 and 1, which don't ascend within -32 to 31";
    says(bounded(&part[..1], &[[2, 1]], &zero, &one), text);
    let text = "refused 14: the cover from the left has the bounds 1 and 0 in pixel row 0, which descend";
    says(bounded(&part[..1], &[[1, 2]], &one, &zero), text);
    let text =
        "refused 9: of layer 5 in pixel row 4 the absolute covers, the incoming one included, sum to 132, above 127";
    says(bounded(&part[..1], &[[-32, 1]], &Cover([-100; 16]), &one), text);
}

#[test]
fn records() {
    let table = |records: &[Revision]| Revisions::new(records).table().map(|table| table.len());
    let twins = [Revision::of(solid(4), 2), Revision::of(solid(3), 2), Revision::withdrawal(4, 2)];
    says(table(&twins), "refused 15: two records of layer 4 have revision 2");
    says(
        table(&[twins[0], Revision::withdrawal(1 << 21, 0)]),
        "refused 4: record 1, of layer 2097152: its id is above 2097151",
    );
}

#[test]
fn four_high_rows() {
    let low = |tile_x, cover| four_high::PixelSegment::new(Fields { tile_x, local_y: 3, cover, ..PLACE }).unwrap();
    let open = |segments: &[four_high::PixelSegment], tile_y, tiles| {
        four_high::LayerRow::open(segments, tile_y, tiles, 5, FillRule::NonZero).map(|row| row.tiles())
    };
    says(open(&[], 8_191, 0..4), "refused 2: the row number is 8191, and rows are 0 to 8190");
    let above = four_high::LayerRow::open(&[], 0, 0..4, 1 << 21, FillRule::NonZero).map(|row| row.tiles());
    says(above, "refused 4: record 0, of layer 2097152: its id is above 2097151");
    says(
        open(&[low(2, 1), low(1, 1)], 0, 0..4),
        "refused 3: segment 1 lies before the one that it follows, by tile x and layer",
    );
    let text =
        "refused 9: of layer 5 in pixel row 3 the absolute covers, the incoming one included, sum to 128, above 127";
    says(open(&[low(-1, 16); 8], 0, 0..4), text);
    let segments = [low(0, 16); 8];
    let mut row = four_high::LayerRow::open(&segments, 0, 0..2, 5, FillRule::NonZero).unwrap();
    says(row.work(1, &mut four_high::Plane::new()), "refused 2: tile 1 was asked for, and tile 0 is the next");
    says(row.work_next(&mut four_high::Plane::new()), text);
    says(row.work_tiles(&mut [four_high::Plane::new()]), text);
}

/// Equality and order look at the condition alone.
#[test]
fn causes_play_no_part_in_equality() {
    let told = PixelSegment::new(Fields { cover: 99, ..PLACE }).unwrap_err();
    assert_eq!((told, told.cmp(&Refusal::Field)), (Refusal::Field, std::cmp::Ordering::Equal));
    assert!(told.cause().is_some() && Refusal::Field.cause().is_none() && told != Refusal::Row && told > Refusal::Row);
    assert_eq!(Refusal::from(Condition::Tag), Refusal::Tag);
    assert_eq!(format!("{:?}", Refusal::Tag), "Tag");
    assert!(std::mem::size_of::<Refusal>() <= 24);
}
