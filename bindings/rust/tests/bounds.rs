//! Covers known within bounds: planes of intervals, choices within them, refusals.

use tile_rows::{Bounded, Cover, Fields, FillRule, PixelSegment, Plane, Refusal};

fn segment(local_x: u8, local_y: u8, double_area_multiplier: u8, cover: i8) -> PixelSegment {
    let place = Fields { layer_id: 5, tile_x: 2, tile_y: 0, local_x, local_y, double_area_multiplier, cover };
    PixelSegment::new(place).unwrap()
}

fn bounded(part: &[PixelSegment], bounds: &[[i8; 2]], low: i8, high: i8) -> Result<Bounded, Refusal> {
    let mut planes = Bounded::new();
    planes.bound_part(5, 2, 0, part, bounds, &Cover([low; 16]), &Cover([high; 16])).map(|()| planes)
}

#[test]
fn intervals_and_their_weights() {
    let planes = bounded(&[segment(3, 0, 8, 1)], &[[-16, 16]], 0, 16).unwrap();
    assert_eq!((planes.doubled_areas(2, 0), planes.doubled_areas(2, 1)), (0..=512, 0..=512));
    assert_eq!(planes.doubled_areas(3, 0), -128..=640);
    assert_eq!(planes.doubled_areas(4, 0), -512..=1024);
    assert_eq!((planes.weights(3, 0, FillRule::NonZero), planes.weights(3, 0, FillRule::EvenOdd)), (0..=512, 0..=512));
    let narrow = bounded(&[segment(3, 0, 8, 1)], &[[2, 4]], 3, 3).unwrap();
    assert_eq!(narrow.weights(4, 0, FillRule::NonZero), 160..=224);
}

/// Whatever is chosen within the bounds has its coverages inside; equal bounds are the coverages themselves.
#[test]
fn choices_lie_inside() {
    let mut state = 1u64;
    let mut draw = |n: u64| {
        state = state.wrapping_mul(6_364_136_223_846_793_005).wrapping_add(1_442_695_040_888_963_407);
        (state >> 33) % n
    };
    for _ in 0..200 {
        let places: Vec<_> = (0..draw(8)).map(|_| (draw(16) as u8, draw(16) as u8, draw(64) as u8)).collect();
        let bounds: Vec<[i8; 2]> =
            places.iter().map(|_| (draw(12) as i8 - 6, draw(6) as i8)).map(|(low, more)| [low, low + more]).collect();
        let chosen: Vec<i8> = bounds.iter().map(|&[low, high]| low + draw((high - low + 1) as u64) as i8).collect();
        let part: Vec<_> =
            places.iter().zip(&chosen).map(|(&(x, y, multiplier), &cover)| segment(x, y, multiplier, cover)).collect();
        let (low, high) = (draw(9) as i8 - 16, draw(9) as i8);
        let carry = low + draw((high - low + 1) as u64) as i8;
        let wide = bounded(&part, &bounds, low, high).unwrap();
        let equal: Vec<[i8; 2]> = chosen.iter().map(|&cover| [cover; 2]).collect();
        let exact = bounded(&part, &equal, carry, carry).unwrap();
        for rule in [FillRule::NonZero, FillRule::EvenOdd] {
            let mut plane = Plane::new();
            plane.paint_part(&part, &Cover([carry; 16]), rule).unwrap();
            for (column, row) in (0..256).map(|k| (k % 16, k / 16)) {
                let weight = (plane.at(column, row) * 512.0) as u16;
                assert!(wide.weights(column, row, rule).contains(&weight));
                assert_eq!(exact.weights(column, row, rule), weight..=weight);
            }
        }
    }
}

#[test]
fn a_refused_call_leaves_the_planes() {
    let part = [segment(3, 0, 8, 1), segment(15, 9, 1, 1)];
    let mut planes = bounded(&part, &[[-1, 1], [2, 3]], -4, 4).unwrap();
    let before = planes.clone();
    let low = Cover([0; 16]);
    let mut call = |part: &[PixelSegment], bounds: &[[i8; 2]], high: i8| {
        planes.bound_part(5, 2, 0, part, bounds, &low, &Cover([high; 16]))
    };
    assert_eq!(call(&part, &[[0, 1]], 0), Err(Refusal::Room));
    let other = PixelSegment::from_word(part[0].word() ^ 1 << 20);
    assert_eq!(call(&[other], &[[0, 1]], 0), Err(Refusal::Row));
    assert_eq!(call(&part, &[[0, 1], [1, 0]], 0), Err(Refusal::Bounds));
    assert_eq!(call(&part, &[[0, 1], [0, 32]], 0), Err(Refusal::Bounds));
    assert_eq!(call(&part, &[[0, 1], [0, 1]], -1), Err(Refusal::Bounds));
    assert_eq!(call(&part, &[[0, 1], [-32, 31]], 96), Err(Refusal::Covers));
    assert_eq!(planes, before);
}
