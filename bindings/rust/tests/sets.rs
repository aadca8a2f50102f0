//! Kept sets of segments: the worked examples, refusals, and edits in any order.

use tile_rows::{Cover, Fields, FillRule, PixelSegment, Plane, Refusal, SegmentSet};

const LAYER: u32 = 5;

fn segment(local_x: u8, local_y: u8, double_area_multiplier: u8, cover: i8) -> PixelSegment {
    let place = Fields { layer_id: LAYER, tile_x: 2, tile_y: 0, local_x, local_y, double_area_multiplier, cover };
    PixelSegment::new(place).unwrap()
}

fn begun(cover: i8, part: &[PixelSegment], slots: usize) -> Result<SegmentSet, Refusal> {
    SegmentSet::begin(LAYER, 2, 0, &Cover([cover; 16]), part, slots)
}

/// The doubled areas of a pixel row.
fn row(set: &SegmentSet, row: usize) -> [i16; 16] {
    std::array::from_fn(|column| set.doubled_area(column, row))
}

/// The set is what its segments give when they are worked anew, and its coverages are those of a painted part.
fn check(set: &SegmentSet, cover: i8) {
    let anew = begun(cover, set.segments(), set.slots()).unwrap();
    assert_eq!((anew.carry(), anew.segments()), (set.carry(), set.segments()));
    for rule in [FillRule::NonZero, FillRule::EvenOdd] {
        let mut plane = Plane::new();
        plane.paint_part(set.segments(), &Cover([cover; 16]), rule).unwrap();
        for (column, y) in (0..256).map(|k| (k / 16, k % 16)) {
            assert_eq!(set.doubled_area(column, y), anew.doubled_area(column, y));
            assert_eq!(set.coverage(column, y, rule), plane.at(column, y));
        }
    }
}

#[test]
fn segments_come_and_go() {
    let (a, b) = (segment(3, 0, 32, -16), segment(3, 0, 8, -16));
    let mut set = begun(16, &[], 2).unwrap();
    assert_eq!((row(&set, 0), set.carry()), ([512; 16], Cover([16; 16])));
    set.take_in(a).unwrap();
    let with_a: [i16; 16] = std::array::from_fn(|column| if column < 3 { 512 } else { 0 });
    assert_eq!((row(&set, 0), row(&set, 1), set.carry().0[..2].to_vec()), (with_a, [512; 16], vec![0, 16]));
    set.take_in(b).unwrap();
    assert_eq!((row(&set, 0)[3], row(&set, 0)[4], set.carry().0[0]), (-128, -512, -16));
    check(&set, 16);
    set.let_out(b).unwrap();
    assert_eq!((row(&set, 0), set.segments()), (with_a, &[a][..]));
    set.let_out(a).unwrap();
    assert_eq!((row(&set, 0), set.carry(), set.segments().len()), ([512; 16], Cover([16; 16]), 0));
}

#[test]
fn a_refused_edit_leaves_the_set() {
    let words = [segment(3, 0, 32, -16), segment(3, 0, 8, -16), segment(15, 9, 1, 1)];
    let mut set = begun(16, &words[..2], 2).unwrap();
    let before = set.clone();
    assert_eq!(set.take_in(words[2]), Err(Refusal::Slots));
    assert_eq!(set.let_out(words[2]), Err(Refusal::NotHeld));
    let other = PixelSegment::from_word(words[0].word() ^ 1 << 20);
    assert_eq!((set.take_in(other), set.let_out(other)), (Err(Refusal::Row), Err(Refusal::Row)));
    assert_eq!(set, before);
    set.add_slots(1);
    set.take_in(words[2]).unwrap();
    assert_eq!((set.slots(), set.doubled_area(15, 9), set.carry().0[9]), (3, 513, 17));
    assert_eq!(begun(16, &words, 2), Err(Refusal::Slots));
    assert_eq!(begun(-128, &[], 2), Err(Refusal::Covers));
    let mut heavy = begun(120, &[], 0).unwrap();
    assert_eq!(heavy.take_in(segment(0, 0, 0, -8)), Err(Refusal::Covers), "before 13");
    assert_eq!(begun(119, &[segment(0, 0, 0, -8)], 1).map(|set| set.carry().0[0]), Ok(111));
}

/// A segment taken in and let out leaves an equal set; so do the same segments in another order. Other segments, the
/// same ones another number of times, another cover, layer, tile or number of slots make another set.
#[test]
fn equal_sets() {
    let (a, b) = (segment(3, 0, 32, -16), segment(3, 0, 8, -16));
    let mut set = begun(16, &[a], 3).unwrap();
    let before = set.clone();
    set.take_in(b).unwrap();
    assert_ne!(set, before);
    set.let_out(b).unwrap();
    assert_eq!(set, before);

    // Let out from the front, so that the last one moves into its slot.
    let mut moved = begun(16, &[b, a, a], 3).unwrap();
    assert_eq!(moved, begun(16, &[a, b, a], 3).unwrap());
    assert_ne!(moved, begun(16, &[a, b, b], 3).unwrap());
    moved.let_out(b).unwrap();
    moved.let_out(a).unwrap();
    assert_eq!(moved, before);

    assert_ne!(begun(15, &[a], 3).unwrap(), before);
    assert_ne!(begun(16, &[a], 4).unwrap(), before);
    let empty = |layer, x, y| SegmentSet::begin(layer, x, y, &Cover([16; 16]), &[], 3).unwrap();
    for other in [empty(LAYER + 1, 2, 0), empty(LAYER, 3, 0), empty(LAYER, 2, 1)] {
        assert_ne!(other, empty(LAYER, 2, 0));
    }
    let mut longer = before.clone();
    longer.add_slots(1);
    assert_eq!(longer, begun(16, &[a], 4).unwrap());
}

/// The set knows its layer and tile: a segment of another one is refused by 3, and the set stays as it was.
#[test]
fn another_layer_or_tile() {
    let place = |layer_id, tile_x, tile_y| {
        let fields =
            Fields { layer_id, tile_x, tile_y, local_x: 3, local_y: 0, double_area_multiplier: 32, cover: -16 };
        PixelSegment::new(fields).unwrap()
    };
    let own = place(LAYER, 2, 0);
    let mut set = begun(16, &[own], 3).unwrap();
    assert_eq!((set.layer_id(), set.tile()), (LAYER, (2, 0)));
    let before = set.clone();
    for other in
        [place(LAYER + 1, 2, 0), place(LAYER, 3, 0), place(LAYER, 1, 0), place(LAYER, 2, 1), place(LAYER, 2, -1)]
    {
        assert_eq!((set.take_in(other), set.let_out(other)), (Err(Refusal::Row), Err(Refusal::Row)));
        assert_eq!(begun(16, &[own, other], 3), Err(Refusal::Row));
        assert_eq!(set, before);
        let Fields { layer_id, tile_x, tile_y, .. } = other.fields();
        let mut there = SegmentSet::begin(layer_id, tile_x, tile_y, &Cover([16; 16]), &[other], 3).unwrap();
        assert_eq!(there.take_in(own), Err(Refusal::Row));
    }
}

#[test]
fn many_edits() {
    let mut state = 1u64;
    let mut draw = |n: u64| {
        state = state.wrapping_mul(6_364_136_223_846_793_005).wrapping_add(1_442_695_040_888_963_407);
        (state >> 33) % n
    };
    let mut set = begun(-3, &[], 40).unwrap();
    for _ in 0..400 {
        if draw(3) > 0 || set.segments().is_empty() {
            let cover = draw(17) as i8 - 8;
            let segment = segment(draw(16) as u8, draw(16) as u8, draw(64) as u8, cover);
            match set.take_in(segment) {
                Ok(()) => assert_eq!(set.segments().last(), Some(&segment)),
                Err(refusal) => assert!([Refusal::Slots, Refusal::Covers].contains(&refusal)),
            }
        } else {
            let held = set.segments()[draw(set.segments().len() as u64) as usize];
            set.let_out(held).unwrap();
        }
        check(&set, -3);
    }
    assert!(set.segments().len() > 10);
}
