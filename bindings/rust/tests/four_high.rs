//! Tiles four pixels high: packing, order, searches, a layer's row, and covers and coverages beside those of tiles 16
//! high. The numbers in words are those of the request's worked examples.

use std::cmp::Ordering;

use tile_rows::{
    exports,
    four_high::{self, search_last, Key, LayerRow, RangeEnd, TilesWorked},
    Color, Cover, Fields, FillRule, Layer, LayerTable, PixelSegment, Plane, Refusal, Row, Style, TileList,
};

const FIELDS: Fields =
    Fields { layer_id: 5, tile_x: 2, tile_y: 0, local_x: 3, local_y: 1, double_area_multiplier: 32, cover: 16 };

const RULES: [FillRule; 2] = [FillRule::NonZero, FillRule::EvenOdd];

/// Layer 1 in tiles -1, 0 and 2 of row 0.
const ROW: [u64; 3] = [0x0008000000040810, 0x000800800005223B, 0x0008018000044830];

fn segment(fields: Fields) -> four_high::PixelSegment {
    four_high::PixelSegment::new(fields).unwrap()
}

fn segments<const N: usize>(words: [u64; N]) -> [four_high::PixelSegment; N] {
    words.map(four_high::PixelSegment::from_word)
}

/// Numbers below what each call asks for.
fn draws() -> impl FnMut(u64) -> u64 {
    let mut state = 1u64;
    move |n| {
        state = state.wrapping_mul(6_364_136_223_846_793_005).wrapping_add(1_442_695_040_888_963_407);
        (state >> 33) % n
    }
}

#[test]
fn packing_and_order() {
    let packed = segment(FIELDS);
    assert_eq!((packed.fields(), packed.double_area()), (FIELDS, 512));
    assert_eq!(packed.word(), 1 << 51 | 3 << 39 | 5 << 18 | 3 << 14 | 1 << 12 | 32 << 6 | 16);
    for tile_y in [-1, 8_190] {
        assert_eq!(segment(Fields { tile_y, ..FIELDS }).fields().tile_y, tile_y);
    }
    for fields in [Fields { tile_y: 8_191, ..FIELDS }, Fields { tile_y: -2, ..FIELDS }, Fields { local_y: 4, ..FIELDS }]
    {
        assert_eq!(four_high::PixelSegment::new(fields), Err(Refusal::Field));
    }
    let same = segment(Fields { local_x: 9, cover: 1, ..FIELDS });
    let above = segment(Fields { layer_id: 6, ..FIELDS });
    assert_eq!((packed.compare(&same), packed == same), (Ordering::Equal, false));
    assert_eq!((packed.compare(&above), above.compare(&packed)), (Ordering::Less, Ordering::Greater));
    assert_eq!(four_high::PixelSegment::from_word(7).word(), 7);
}

#[test]
fn packed_words() {
    let packed = |layer_id, tile_x, tile_y, local_x, local_y, double_area_multiplier, cover| {
        let fields = Fields { layer_id, tile_x, tile_y, local_x, local_y, double_area_multiplier, cover };
        let segment = four_high::PixelSegment::new(fields)?;
        assert_eq!(segment.fields(), fields);
        let (layer_id, tile_x, tile_y) = (segment.layer_id(), segment.tile_x(), segment.tile_y());
        let (local_x, local_y, cover) = (segment.local_x(), segment.local_y(), segment.cover());
        let double_area_multiplier = segment.double_area_multiplier();
        assert_eq!(Fields { layer_id, tile_x, tile_y, local_x, local_y, double_area_multiplier, cover }, fields);
        Ok(segment.word())
    };
    assert_eq!(packed(5, 2, 0, 3, 3, 32, 16), Ok(0x000801800014F810));
    assert_eq!(packed(5, 2, 0, 3, 3, 32, -1), Ok(0x000801800014F83F));
    assert_eq!(four_high::PixelSegment::from_word(0x000801800014F83F).double_area(), -32);
    assert_eq!(packed(5, 2, 8_190, 3, 3, 32, 16), Ok(0xFFF801800014F810));
    assert_eq!(packed(5, 2, 2_047, 3, 3, 32, 16), Ok(0x400001800014F810));
    assert_eq!(packed(5, 2, -1, 3, 0, 32, 16), Ok(0x000001800014C810));
    assert_eq!(packed(2_097_151, 4_094, 8_190, 15, 3, 63, 31), Ok(0xFFFFFFFFFFFFFFDF));
    assert_eq!(packed(7, 0, 0, 1, 2, 32, -16), Ok(0x00080080001C6830));
    assert_eq!(packed(5, 4_095, 0, 3, 3, 32, 16), Err(Refusal::Field));
    let [one, other] = segments([packed(5, 2, 0, 3, 3, 32, 16).unwrap(), packed(5, 2, 0, 15, 0, 0, -32).unwrap()]);
    assert_eq!(one.compare(&other), Ordering::Equal);
}

#[test]
fn searches() {
    // Layers 1, 3, 3, 3 and 7 of tile -1 in row -1.
    let segments = segments([0x40000, 0xC0000, 0xC0000, 0xC0000, 0x1C0000]);
    let found = |layer_id| search_last(&segments, Key::LayerId(layer_id));
    assert_eq!([found(3), found(0), found(4), found(9)], [Ok(3), Err(0), Err(4), Err(5)]);
    assert_eq!(search_last(&[], Key::LayerId(3)), Err(0));
    assert_eq!((search_last(&segments, Key::TileX(-1)), search_last(&segments, Key::TileY(0))), (Ok(4), Err(5)));
    let at_least = |start, wanted| search_last(&segments, Key::LayerIdAtLeast(start, wanted));
    assert_eq!(
        [at_least(3, false), at_least(3, true), at_least(1, false), at_least(8, true)],
        [Ok(0), Ok(4), Err(0), Err(5)]
    );
}

/// By whether a tile is at least another, or not negative: false stands before true.
#[test]
fn searches_by_at_least() {
    let segments = segments(ROW);
    let at_least = |start, wanted| search_last(&segments, Key::TileXAtLeast(start, wanted));
    assert_eq!(
        [at_least(0, false), at_least(2, false), at_least(-1, false), at_least(3, false)],
        [Ok(0), Ok(1), Err(0), Ok(2)]
    );
    assert_eq!([at_least(0, true), at_least(3, true)], [Ok(2), Err(3)]);
    let above = [segment(Fields { tile_y: -1, ..FIELDS }), segment(FIELDS)];
    let not_negative = |wanted| search_last(&above, Key::TileYNotNegative(wanted));
    assert_eq!([not_negative(false), not_negative(true)], [Ok(0), Ok(1)]);
}

#[test]
fn covers_and_coverages() {
    let mut cover = four_high::Cover([16; 4]);
    let mut plane = four_high::Plane::new();
    plane.paint_part(&segments([0x0008018000161430]), &cover, FillRule::NonZero).unwrap();
    let expected = |place| match place {
        24 => 0.5,
        25..32 => 0.0,
        _ => 1.0,
    };
    assert!(plane.rows().flatten().eq((0..64).map(expected)));
    cover.carry(&segments([0x000801800014C830])).unwrap();
    assert_eq!(cover.0, [0, 16, 16, 16]);

    let light = [segment(Fields { cover: -8, ..FIELDS })];
    let mut cover = four_high::Cover([119; 4]);
    assert_eq!((cover.carry(&light), cover.0), (Ok(()), [119, 111, 119, 119]));
}

#[test]
fn a_row_of_one_layer() {
    let segments = segments(ROW);
    let mut row = LayerRow::open(&segments, 0, 0..4, 1, FillRule::NonZero).unwrap();
    assert_eq!((row.segments(), row.layer_id(), row.tiles(), row.next_tile()), (segments.as_slice(), 1, 0..4, 0));
    let mut plane = four_high::Plane::new();
    let (mut carries, mut sums) = (vec![row.cover().0], Vec::new());
    while let Some(tile) = row.work_next(&mut plane).unwrap() {
        assert_eq!(tile, row.next_tile() - 1);
        carries.push(row.cover().0);
        sums.push(plane.rows().flatten().sum::<f32>());
        if tile == 0 {
            let third = |column| match column {
                0..4 => 0.0,
                4 => 0.078125,
                _ => 0.3125,
            };
            assert!(plane.rows().eq([[1.0; 16], [0.0; 16], std::array::from_fn(third), [0.0; 16]]));
        }
    }
    assert_eq!(carries, [[16, 0, 0, 0], [16, 0, -5, 0], [16, 0, -5, 0], [0, 0, -5, 0], [0, 0, -5, 0]]);
    assert_eq!(sums, [16.0 + 0.078125 + 11.0 * 0.3125, 21.0, 6.0, 5.0]);

    // After the last tile the plane stays, and a tile by its number is refused.
    let (last, ended) = (plane.clone(), row.clone());
    assert_eq!((row.work_next(&mut plane), row.work(4, &mut plane)), (Ok(None), Err(Refusal::Tile)));
    assert_eq!((row, plane), (ended, last));
}

/// What is empty by the rule is handed on as zeros; layers that the row lacks are zeros throughout.
#[test]
fn dropped_covers_and_absent_layers() {
    let even = [0, 1].map(|tile_x| segment(Fields { tile_x, cover: 16, ..FIELDS }));
    for (rule, handed) in [(FillRule::NonZero, 32), (FillRule::EvenOdd, 0)] {
        let mut row = LayerRow::open(&even, 0, 1..2, 5, rule).unwrap();
        assert_eq!(row.cover().0, [0, 16, 0, 0]);
        row.work(1, &mut four_high::Plane::new()).unwrap();
        assert_eq!(row.cover().0, [0, handed, 0, 0]);
        assert_eq!(LayerRow::open(&even, 0, 0..2, 1 << 21, rule), Err(Refusal::Table), "no layer has such an id");
        for layer_id in [4, (1 << 21) - 1] {
            let mut row = LayerRow::open(&even, 0, 0..2, layer_id, rule).unwrap();
            let mut plane = four_high::Plane::new();
            plane.paint_part(&even, &four_high::Cover::default(), rule).unwrap();
            assert_eq!((row.work_next(&mut plane), row.cover().0), (Ok(Some(0)), [0; 4]));
            assert_eq!(plane, four_high::Plane::new());
        }
    }
    // No tiles at all.
    let mut row = LayerRow::open(&even, 0, 1..1, 5, FillRule::NonZero).unwrap();
    assert_eq!(row.work_next(&mut four_high::Plane::new()), Ok(None));
}

/// The same segments, in pixel rows 0 to 3, at both heights.
#[test]
fn rows_0_to_3_of_a_tile_16_high() {
    let mut draw = draws();
    for _ in 0..200 {
        let fields: Vec<Fields> = (0..draw(12))
            .map(|_| Fields {
                local_x: draw(16) as u8,
                local_y: draw(4) as u8,
                double_area_multiplier: draw(64) as u8,
                cover: draw(17) as i8 - 8,
                ..FIELDS
            })
            .collect();
        let low: Vec<_> = fields.iter().map(|&fields| segment(fields)).collect();
        let high: Vec<_> = fields.iter().map(|&fields| PixelSegment::new(fields).unwrap()).collect();
        let (mut four, mut cover) = (four_high::Cover([3, -5, 16, 0]), Cover::default());
        cover.0[..4].copy_from_slice(&four.0);
        for rule in RULES {
            let (mut plane, mut tall) = (four_high::Plane::new(), Plane::new());
            plane.paint_part(&low, &four, rule).unwrap();
            tall.paint_part(&high, &cover, rule).unwrap();
            assert!(plane.rows().eq(tall.rows().take(4)));
        }
        four.carry(&low).unwrap();
        cover.carry(&high).unwrap();
        assert_eq!(four.0, cover.0[..4]);
    }
}

#[test]
fn refusals_leave_what_was_lent() {
    let heavy = [segment(Fields { cover: -8, ..FIELDS })];
    let mut cover = four_high::Cover([120; 4]);
    let mut plane = four_high::Plane::new();
    plane.paint_part(&[], &cover, FillRule::NonZero).unwrap();
    let before = plane.clone();
    assert_eq!(cover.carry(&heavy), Err(Refusal::Covers));
    assert_eq!(plane.paint_part(&heavy, &cover, FillRule::EvenOdd), Err(Refusal::Covers));
    assert_eq!((cover.0, plane), ([120; 4], before));
}

#[test]
fn refused_openings() {
    let row = segments(ROW);
    let open =
        |segments: &[_], tile_y, tiles| LayerRow::open(segments, tile_y, tiles, 1, FillRule::NonZero).map(|_| ());
    for tile_y in [-1, 8_191] {
        assert_eq!(open(&[], tile_y, 0..4), Err(Refusal::Tile));
    }
    let low = [segment(Fields { tile_y: 8_190, ..FIELDS })];
    assert_eq!((open(&low, 8_190, 0..4_095), open(&low, 0, 0..4)), (Ok(()), Err(Refusal::Row)));
    for (from, to) in [(-1, 4), (3, 2), (0, 4_096)] {
        assert_eq!(open(&row, 0, from..to), Err(Refusal::Tile));
    }
    assert_eq!(open(&[row[1], row[0]], 0, 0..4), Err(Refusal::Row));
    // 4 times 31 and 3 are 127, and one more is too much: but not in another pixel row, in another layer or from the
    // first tile on.
    let one = Fields { layer_id: 1, tile_x: -1, ..FIELDS };
    let opened = |fields| {
        let segments = [[Fields { cover: 31, ..one }; 4].as_slice(), &[fields]].concat();
        open(&segments.into_iter().map(segment).collect::<Vec<_>>(), 0, 0..4)
    };
    assert_eq!(opened(Fields { cover: -3, ..one }), Ok(()));
    let heavy = Fields { cover: -4, ..one };
    assert_eq!(opened(heavy), Err(Refusal::Covers));
    for fields in [Fields { local_y: 2, ..heavy }, Fields { layer_id: 2, ..heavy }, Fields { tile_x: 0, ..heavy }] {
        assert_eq!(opened(fields), Ok(()));
    }
}

#[test]
fn a_refused_row_is_used_on() {
    let row = segments(ROW);
    let mut plane = four_high::Plane::new();
    let mut used = LayerRow::open(&row, 0, 0..4, 1, FillRule::NonZero).unwrap();
    let mut smooth = used.clone();
    let mut expected = four_high::Plane::new();
    for tile in used.tiles() {
        for other in [-1, tile - 1, tile + 1, 4, i32::MAX] {
            let before = (used.clone(), plane.clone());
            assert_eq!(used.work(other, &mut plane), Err(Refusal::Tile));
            assert_eq!((used.clone(), plane.clone()), before);
        }
        assert_eq!(used.work(tile, &mut plane), Ok(()));
        assert_eq!(smooth.work_next(&mut expected), Ok(Some(tile)));
        assert_eq!((&used, &plane), (&smooth, &expected));
    }

    // 120 from the left and -8 in tile 1: its work is refused, by its number or as the next, and tile 0 is as it was.
    let heavy = [(-1, 30), (-1, 30), (-1, 30), (-1, 30), (1, -8)];
    let heavy = heavy.map(|(tile_x, cover)| segment(Fields { tile_x, cover, ..FIELDS }));
    let mut row = LayerRow::open(&heavy, 0, 0..4, 5, FillRule::EvenOdd).unwrap();
    assert_eq!(row.work_next(&mut plane), Ok(Some(0)));
    let before = (row.clone(), plane.clone());
    assert_eq!((row.work_next(&mut plane), row.work(1, &mut plane)), (Err(Refusal::Covers), Err(Refusal::Covers)));
    assert_eq!((row.next_tile(), row.cover().0), (1, [0, 120, 0, 0]));
    assert_eq!((row, plane), before);
}

/// Numbers that the types leave no room for: a plane of 63 numbers, and another row than the one that was opened.
#[test]
fn refused_works_by_the_plain_operations() {
    let (mut words, mut covers, mut plane) = ([0; 6], [0; 4], [7.0; 64]);
    assert_eq!(exports::gpu_open_layer_row(0, 0, 4, 1, 0, &ROW, &mut words, &mut covers), 0);
    let mut work = |tile, row: &[u64], room| {
        let before = (words, covers, plane);
        let number = exports::gpu_work_tile(&mut words, &mut covers, tile, row, &mut plane[..room]);
        assert_eq!((words, covers, plane) == before, number != 0);
        number
    };
    let turned = [ROW[1], ROW[0]];
    assert_eq!([work(9, &turned, 63), work(9, &turned, 64), work(0, &turned, 64), work(0, &ROW, 63)], [1, 2, 3, 1]);
    assert_eq!([work(0, &ROW, 64), work(1, &ROW, 64), work(1, &ROW, 64)], [0, 0, 2]);
}

/// A layer's row beside a row of tiles 16 high with the same segments, in pixel rows 0 to 3: coverages and carries.
#[test]
fn rows_beside_rows_16_high() {
    let mut draw = draws();
    let black = Color { r: 0.0, g: 0.0, b: 0.0, a: 1.0 };
    for round in 0..100 {
        let rule = RULES[round % 2];
        let mut fields: Vec<Fields> = (0..draw(40))
            .map(|_| Fields {
                layer_id: draw(3) as u32,
                tile_x: draw(6) as i16 - 1,
                local_x: draw(16) as u8,
                local_y: draw(4) as u8,
                double_area_multiplier: draw(64) as u8,
                cover: [-16, -3, -1, 0, 2, 3, 16, 16][draw(8) as usize],
                ..FIELDS
            })
            .collect();
        fields.sort_by_key(|fields| (fields.tile_x, fields.layer_id));
        let low: Vec<_> = fields.iter().map(|&fields| segment(fields)).collect();
        let high: Vec<_> = fields.iter().map(|&fields| PixelSegment::new(fields).unwrap()).collect();
        let table = LayerTable::new(&[0, 1, 2].map(|id| Layer { rule, ..Layer::draw(id, Style::solid(black)) }));
        let tiles = draw(3) as i32..5;
        for layer_id in 0..3 {
            let mut four = LayerRow::open(&low, 0, tiles.clone(), layer_id, rule).unwrap();
            let mut row = Row::open(&high, &table, 0, tiles.clone()).unwrap();
            let (mut plane, mut tall, mut list) = (four_high::Plane::new(), Plane::new(), TileList::new());
            for tile in tiles.clone() {
                let handed = row.carries().find(|carry| carry.id == layer_id).map(|carry| carry.cover);
                assert_eq!(four.cover().0, handed.unwrap_or_default().0[..4]);
                four.work(tile, &mut plane).unwrap();
                row.list(tile, &mut list).unwrap();
                row.paint(layer_id, &mut tall).unwrap();
                assert!(plane.rows().eq(tall.rows().take(4)));
            }
        }
    }
}

#[test]
fn a_range_is_the_succession_of_its_tiles() {
    let row = segments(ROW);
    for (planes, worked, ended) in
        [(2, 2, RangeEnd::Asked), (4, 4, RangeEnd::Asked), (6, 4, RangeEnd::RowEnd), (0, 0, RangeEnd::Asked)]
    {
        let mut single = LayerRow::open(&row, 0, 0..4, 1, FillRule::NonZero).unwrap();
        let mut many = single.clone();
        let mut old = four_high::Plane::new();
        old.paint_part(&row[1..2], &four_high::Cover([7; 4]), FillRule::NonZero).unwrap();
        let mut expected = vec![old.clone(); planes];
        let mut given = expected.clone();
        for plane in expected.iter_mut().take(worked) {
            single.work_next(plane).unwrap();
        }
        assert_eq!(many.work_tiles(&mut given), Ok(TilesWorked { worked, ended }), "{planes} planes");
        assert_eq!((&given, &many), (&expected, &single));
    }
}

#[test]
fn a_range_ends_before_a_tile_that_is_refused() {
    // Layer 1 has more in a pixel row of tile 1 than number 9 lets pass.
    let heavy = Fields { layer_id: 1, tile_x: 1, cover: 31, ..FIELDS };
    let row = [segment(heavy); 5];
    let mut open = LayerRow::open(&row, 0, 0..3, 1, FillRule::NonZero).unwrap();
    let mut planes = vec![four_high::Plane::new(); 3];
    let worked = TilesWorked { worked: 1, ended: RangeEnd::Refused(Refusal::Covers) };
    assert_eq!((open.work_tiles(&mut planes), open.next_tile()), (Ok(worked), 1));
    let before = open.clone();
    assert_eq!((open.work_tiles(&mut planes), &open), (Err(Refusal::Covers), &before));
    let mut ended = LayerRow::open(&row[..0], 0, 2..2, 1, FillRule::NonZero).unwrap();
    assert_eq!(ended.work_tiles(&mut planes), Err(Refusal::Tile));
    assert_eq!(ended.work_tiles(&mut []), Ok(TilesWorked { worked: 0, ended: RangeEnd::Asked }));
}

#[test]
fn a_layer_record_out_of_range() {
    let (mut words, mut covers) = ([9; 6], [9; 4]);
    for (layer_id, rule, number) in [(2_097_151, 1, 0), (2_097_152, 1, 4), (1, 2, 4), (1, 7, 4)] {
        (words, covers) = ([9; 6], [9; 4]);
        assert_eq!(exports::gpu_open_layer_row(0, 0, 4, layer_id, rule, &[], &mut words, &mut covers), number);
        assert_eq!((words == [9; 6], covers == [9; 4]), (number == 4, number == 4));
    }
    // 3 comes before 4, and 4 before 9.
    let row = segments(ROW);
    let words_of_row = [ROW[1], ROW[0]];
    assert_eq!(exports::gpu_open_layer_row(0, 0, 4, 1, 7, &words_of_row, &mut words, &mut covers), 3);
    let heavy = [segment(Fields { layer_id: 1, tile_x: -1, cover: 31, ..FIELDS }).word(); 5];
    assert_eq!(exports::gpu_open_layer_row(0, 0, 4, 1, 7, &heavy, &mut words, &mut covers), 4);
    assert_eq!(exports::gpu_open_layer_row(0, 0, 4, 1, 1, &heavy, &mut words, &mut covers), 9);
    assert_eq!(LayerRow::open(&row, 0, 0..4, 2_097_152, FillRule::NonZero), Err(Refusal::Table));
}

#[test]
fn rows_and_covers_by_the_exports() {
    assert!(exports::gpu_is_row(&ROW, 1) && !exports::gpu_is_row(&ROW, 2) && exports::gpu_does_ascend(&ROW));
    assert!(!exports::gpu_does_ascend(&[ROW[1], ROW[0]]));
    let (thirty_two, sixteen) = (four_high::Cover([32; 4]), four_high::Cover([-16; 4]));
    assert!(thirty_two.is_empty(FillRule::EvenOdd) && !thirty_two.is_empty(FillRule::NonZero));
    assert!(sixteen.is_full(FillRule::EvenOdd) && sixteen.is_full(FillRule::NonZero));
}
