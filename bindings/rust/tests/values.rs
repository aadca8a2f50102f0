//! The small types: segments, refusals, covers, marks, planes, cached tiles, colours. The cases marked P are the
//! scope's.

use std::{cmp::Ordering, collections::HashSet};

use tile_rows::{
    plane::doubled_area_to_coverage,
    segment::{does_ascend, search_last, segments_of, words_of, Key},
    settle, BlendMode, CachedTile, Color, Cover, Fields, FillRule, Mark, PixelSegment, Plane, Refusal, Settled,
};

const P1: Fields =
    Fields { layer_id: 5, tile_x: 2, tile_y: 0, local_x: 3, local_y: 4, double_area_multiplier: 32, cover: 16 };

#[test]
fn packing() {
    let segment = PixelSegment::new(P1).unwrap();
    assert_eq!((segment.word(), segment.fields(), segment.double_area()), (0x0020_0600_0053_4810, P1, 512));
    let negative = PixelSegment::new(Fields { cover: -1, ..P1 }).unwrap();
    assert_eq!((negative.word(), negative.double_area()), (0x0020_0600_0053_483F, -32));
    // Whatever its number: a tile of 32,767 is turned down.
    assert!(PixelSegment::new(Fields { tile_x: 32_767, ..P1 }).is_err());
    assert_eq!(words_of(segments_of(&[1, 2])), [1, 2]);
}

#[test]
fn order_looks_at_tiles_and_layer_alone() {
    let segment = PixelSegment::new(P1).unwrap();
    let same = PixelSegment::new(Fields { local_x: 9, cover: 1, ..P1 }).unwrap();
    let above = PixelSegment::new(Fields { layer_id: 6, ..P1 }).unwrap();
    assert_eq!((segment.compare(&same), segment == same), (Ordering::Equal, false));
    assert_eq!((segment.compare(&above), above.compare(&segment)), (Ordering::Less, Ordering::Greater));
    assert!(does_ascend(&[segment, same, above]) && !does_ascend(&[above, segment]));
}

/// P5, with layers as keys.
#[test]
fn searches() {
    let segments = [1, 3, 3, 3, 7].map(|layer_id| PixelSegment::new(Fields { layer_id, ..P1 }).unwrap());
    let found = |layer_id| search_last(&segments, Key::LayerId(layer_id));
    assert_eq!([found(3), found(0), found(4), found(9)], [Ok(3), Err(0), Err(4), Err(5)]);
    assert_eq!(search_last(&[], Key::TileX(3)), Err(0));
    assert_eq!(search_last(&segments, Key::TileY(0)), Ok(4));
    assert_eq!(search_last(&segments, Key::TileXAtLeast(2, true)), Ok(4));
    assert_eq!(search_last(&segments, Key::TileYNotNegative(false)), Err(0));
}

#[test]
fn refusals_have_their_numbers() {
    let numbers: Vec<u32> = Refusal::ALL.iter().map(|refusal| refusal.number()).collect();
    assert_eq!(numbers, (1..=15).collect::<Vec<_>>());
    assert!(Refusal::ALL.iter().all(|&refusal| Refusal::from_number(refusal.number()) == Some(refusal)));
    assert_eq!((Refusal::from_number(0), Refusal::from_number(16)), (None, None));
    assert_eq!((Refusal::judge(0), Refusal::judge(9)), (Ok(()), Err(Refusal::Covers)));
    let meanings: HashSet<&str> = Refusal::ALL.iter().map(|refusal| refusal.meaning()).collect();
    assert_eq!(meanings.len(), 15);
    assert_eq!(Refusal::Tag.to_string(), "refused 6: the cached tile's tag is above 3");
}

/// P6, with W-205's double windings, and P11.
#[test]
fn covers() {
    let all = |number| Cover([number; 16]);
    assert!(all(32).is_empty(FillRule::EvenOdd) && !all(32).is_empty(FillRule::NonZero));
    assert!(all(-16).is_full(FillRule::EvenOdd) && all(-16).is_full(FillRule::NonZero));
    assert!(all(48).is_full(FillRule::EvenOdd) && all(48).is_full(FillRule::NonZero));
    assert!(all(32).is_full(FillRule::NonZero) && !all(32).is_full(FillRule::EvenOdd));
    let one = PixelSegment::new(Fields { local_y: 0, cover: -16, ..P1 }).unwrap();
    let mut cover = all(16);
    cover.carry(&[one]).unwrap();
    assert_eq!((cover.0[0], &cover.0[1..]), (0, &[16; 15][..]));
    let mut high = all(120);
    assert_eq!(high.carry(&[PixelSegment::new(Fields { cover: -8, ..P1 }).unwrap()]), Err(Refusal::Covers));
    assert_eq!(high, all(120));
}

/// P9 and P10.
#[test]
fn coverages() {
    let non_zero = [256, -512].map(|d| doubled_area_to_coverage(d, FillRule::NonZero));
    let even_odd = [700, -256, 1024].map(|d| doubled_area_to_coverage(d, FillRule::EvenOdd));
    assert_eq!((non_zero, even_odd), ([0.5, 1.0], [0.632_812_5, 0.5, 0.0]));
}

/// A plane whose pixels tell columns from rows: one segment in column 3 of row 4.
#[test]
fn planes_by_column_and_row() {
    let mut plane = Plane::new();
    let part = [PixelSegment::new(Fields { double_area_multiplier: 16, ..P1 }).unwrap()];
    let mark = plane.paint_part(&part, &Cover::default(), FillRule::NonZero).unwrap();
    let row: Vec<f32> = plane.rows().nth(4).unwrap().to_vec();
    assert_eq!(row, [vec![0.0; 3], vec![0.5], vec![1.0; 12]].concat());
    assert_eq!((plane.at(3, 4), plane.at(4, 3), plane.at(15, 4)), (0.5, 0.0, 1.0));
    assert_eq!(plane.columns().nth(3).unwrap()[4], 0.5);
    assert_eq!((mark, mark.octets(), plane.mark()), (plane.mark(), 13, mark));
    assert!(mark.uses(3, 0) && !mark.uses(3, 1) && !mark.uses(2, 0));
    assert_eq!(Mark(0b101).octets(), 2);
}

/// P8 and P12.
#[test]
fn cached_tiles() {
    let mut tile = CachedTile::default();
    assert_eq!((tile.layer_count(), tile.solid_color()), (None, None));
    assert_eq!(tile.update_layer_count(Some(16_777_217)), None);
    assert_eq!(tile.layer_count(), Some(1));
    assert_eq!(tile.update_layer_count(None), Some(1));
    assert_eq!(tile.0, [0, 1, 0, 0, 0, 0, 0, 0], "a cleared tag leaves its bytes");
    let bytes = [1, 2, 3, 4];
    assert_eq!(settle(Some(&mut tile), bytes), Ok(Settled::Write));
    assert_eq!(settle(Some(&mut tile), bytes), Ok(Settled::Keep));
    assert_eq!((tile.solid_color(), tile.update_solid_color(None)), (Some(bytes), Some(bytes)));
    assert_eq!(settle(None, bytes), Ok(Settled::Write));
    assert_eq!(settle(Some(&mut CachedTile([4; 8])), bytes), Err(Refusal::Tag));
}

#[test]
fn colours_and_codes() {
    let color = |a| Color { a, ..Color::default() };
    assert!(color(0.0) == color(-0.0) && color(f32::NAN) != color(f32::NAN) && color(1.0) != color(0.5));
    for mode in BlendMode::ALL {
        assert_eq!(BlendMode::from_code(mode.code()), mode);
    }
}
