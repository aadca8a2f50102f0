//! The crate bindings/rust against the Rust, and the second model where it judges (W-205, W-208): random rows over several
//! frames, tile after tile and in batches.

use comparison::{
    models::{Models, Tables},
    random::Random,
    scene::{any_scene, Picture, Scene},
};
use reference::plain::{self, Cached, Record, Worked};
use tile_rows::{
    segment, settle, Batch, BatchEnd, BatchTile, BlendMode, CachedTile, Color, Cover, Decision, Fill, FillRule, Frame,
    Func, Layer, LayerTable, Listed, PixelSegment, Plane, Row, Settled, Style,
};

fn layer(record: &Record) -> Layer {
    let fill = [Fill::Solid(Color::from(record.color)), Fill::Gradient, Fill::Texture][record.fill as usize];
    let blend_mode = BlendMode::ALL[record.mode as usize];
    let style = Style { is_clipped: record.clipped == 1, fill, blend_mode };
    Layer {
        id: record.id,
        rule: [FillRule::NonZero, FillRule::EvenOdd][record.rule as usize],
        func: if record.func == 1 { Func::Clip { span: record.span } } else { Func::Draw(style) },
        is_unchanged: record.unchanged == 1,
    }
}

fn bits(numbers: [f32; 4]) -> [u32; 4] {
    numbers.map(f32::to_bits)
}

/// Which decision, and of a solid tile the bottom colour and how many layers lie before those to mix.
fn decided(decision: &Decision) -> (u32, [u32; 4], usize) {
    match decision {
        Decision::None => (0, [0; 4], 0),
        Decision::Solid { bottom, before } => (1, bits(bottom.numbers()), *before),
        Decision::Paint => (2, [0; 4], 0),
    }
}

fn decided_by_rust(decision: &plain::Decision) -> (u32, [u32; 4], usize) {
    match decision {
        plain::Decision::None => (0, [0; 4], 0),
        plain::Decision::Solid { bottom, before, .. } => (1, bits(*bottom), *before),
        plain::Decision::Paint => (2, [0; 4], 0),
    }
}

/// The list, what is passed over, the carries, and each painted layer, as the Rust has them.
fn check_tile(row: &mut Row<'_>, decision: &Decision, rust: &Worked, scene: &Scene) {
    assert_eq!(decided(decision), decided_by_rust(&rust.decision), "{scene:?}");
    let flags = |one: &Listed| [one.has_segments, one.is_changed, !one.is_masked_off];
    let ours: Vec<_> = row.listed().map(|one| (one.id, one.cover, flags(&one))).collect();
    let wanted = rust.list.iter().map(|one| (one.id, Cover(one.cover), [one.has_segments, one.changed, one.shown]));
    assert_eq!(ours, wanted.collect::<Vec<_>>(), "{scene:?}");
    assert_eq!(row.listed().filter(|one| one.is_passed_over).count(), rust.skipped, "{scene:?}");
    let carries: Vec<_> = row.carries().map(|carry| (carry.id, carry.cover)).collect();
    assert_eq!(carries, rust.queue.iter().map(|carry| (carry.id, Cover(carry.cover))).collect::<Vec<_>>(), "{scene:?}");
    if *decision == Decision::Paint {
        let mut painted = rust.painted.iter();
        let told = row.paint_shown(&mut Plane::new(), |listed, plane, mark| {
            let wanted = painted.next().expect("the Rust paints as many");
            assert_eq!((listed.id, mark.0), (wanted.id, wanted.mark), "{scene:?}");
            let rows: Vec<u32> = plane.rows().flatten().map(f32::to_bits).collect();
            assert_eq!(rows, wanted.plane.map(f32::to_bits), "{scene:?}");
        });
        assert_eq!((told, painted.next().is_none()), (Ok(()), true), "{scene:?}");
    }
}

/// A tile's cached bytes after its work, and after settling a solid one.
fn check_cached(mut kept: Option<CachedTile>, rust: &Worked, scene: &Scene) -> Option<CachedTile> {
    assert_eq!(kept.map(|kept| kept.0), rust.cached.map(|(worked, _)| worked.0), "{scene:?}");
    if let Some((bytes, is_written)) = rust.settled {
        let settled = if is_written { Settled::Write } else { Settled::Keep };
        assert_eq!(settle(kept.as_mut(), bytes), Ok(settled), "{scene:?}");
    }
    assert_eq!(kept.map(|kept| kept.0), rust.cached.map(|(_, settled)| settled.0), "{scene:?}");
    kept
}

/// A tile of a batch as the Rust has it: its numbers, the layers to mix, and each painted layer.
fn check_batched(tile: &BatchTile<'_>, rust: &Worked, scene: &Scene) {
    assert_eq!(decided(&tile.decision), decided_by_rust(&rust.decision), "{scene:?}");
    let shown: Vec<u32> = rust.list.iter().skip(rust.skipped).filter(|one| one.shown).map(|one| one.id).collect();
    let numbers = (rust.list.len(), rust.skipped, shown.len(), rust.queue.len());
    assert_eq!((tile.listed, tile.passed_over, tile.shown, tile.carried), numbers, "{scene:?}");
    let mixed = match rust.decision {
        plain::Decision::Solid { before, .. } => &shown[before..],
        _ => &[],
    };
    assert!(tile.mixed().eq(mixed.iter().copied()), "{scene:?}");
    assert_eq!(tile.painted().len(), rust.painted.len(), "{scene:?}");
    for (layer, wanted) in tile.painted().zip(&rust.painted) {
        assert_eq!((layer.id, layer.mark.0), (wanted.id, wanted.mark), "{scene:?}");
        assert!(layer.plane.rows().flatten().map(f32::to_bits).eq(wanted.plane.map(f32::to_bits)), "{scene:?}");
    }
}

/// How batches are made, and how many were.
struct Batches {
    batch: Batch,
    sizes: Random,
    count: usize,
}

impl Batches {
    /// A frame's row in batches of random sizes; some end sooner, where four planes are used. The cached tiles begin
    /// with the row.
    fn check(
        &mut self,
        mut row: Row<'_>,
        frame: &Frame,
        rust: &[Worked],
        mut kept: Option<&mut [CachedTile]>,
        scene: &Scene,
    ) {
        let (first, mut left) = (row.tiles().start, rust);
        loop {
            let size = 1 + self.sizes.below(8);
            let end = row.work_tiles(size, frame, kept.as_deref_mut(), &mut self.batch).unwrap();
            self.count += 1;
            let (here, rest) = left.split_at(self.batch.tiles().len());
            left = rest;
            for (tile, rust) in self.batch.tiles().zip(here) {
                check_batched(&tile, rust, scene);
                let place = kept.as_deref_mut().map(|kept| &mut kept[(tile.tile - first) as usize]);
                let after = check_cached(place.as_deref().copied(), rust, scene);
                place.zip(after).into_iter().for_each(|(place, after)| *place = after);
            }
            let carries = row.carries().map(|carry| (carry.id, carry.cover.0));
            if let Some(last) = here.last() {
                assert!(carries.eq(last.queue.iter().map(|carry| (carry.id, carry.cover))), "{scene:?}");
            }
            if end == BatchEnd::RowEnd {
                break;
            }
        }
        assert!(left.is_empty(), "{scene:?}");
    }
}

/// One frame, tile after tile and then in batches; gives how many tiles got each decision.
fn check_frame(scene: &Scene, picture: &Picture, cached: &mut [CachedTile], batches: &mut Batches) -> [u32; 3] {
    let segments = segment::segments_of(&picture.words);
    assert!(segments.iter().all(|segment| PixelSegment::new(segment.fields()) == Ok(*segment)));
    let table = LayerTable::new(&picture.records.iter().map(layer).collect::<Vec<_>>());
    let clear = Color::from(picture.frame.clear);
    let frame = Frame { clear, previous_clear: picture.frame.previous_clear.map(Color::from) };
    let tables = Tables::new(&picture.records);
    let mut rust = Models::open(scene.tile_y, scene.from, scene.to, &picture.words, &tables);
    let tiles = scene.from as i32..scene.to as i32;
    let mut row = Row::open(segments, &table, scene.tile_y as i32, tiles).expect("a scene meets no condition");
    let (mut all, mut kept_in_batches, row_in_batches) = (Vec::new(), cached.to_vec(), row.clone());
    let mut decisions = [0; 3];
    for tile in row.tiles() {
        let place = &mut cached[tile as usize];
        let mut kept = scene.caches.then_some(*place);
        let theirs = rust.work(tile as usize, &picture.frame, kept.map(|kept| Cached(kept.0))).worked;
        let ours = row.work(tile, &frame, kept.as_mut()).expect("a scene meets no condition");
        check_tile(&mut row, &ours.decision, &theirs, scene);
        *place = check_cached(kept, &theirs, scene).unwrap_or(*place);
        decisions[decided(&ours.decision).0 as usize] += 1;
        all.push(theirs);
    }
    let kept = scene.caches.then_some(&mut kept_in_batches[scene.from..]);
    batches.check(row_in_batches, &frame, &all, kept, scene);
    assert_eq!(kept_in_batches, cached, "{scene:?}");
    decisions
}

#[test]
fn rows_through_the_crate_are_those_of_the_rust() {
    let mut random = Random::new(36);
    let mut decisions = [0; 3];
    let mut batches = Batches { batch: Batch::with_planes(4), sizes: Random::new(37), count: 0 };
    for _ in 0..4000 {
        let scene = any_scene(&mut random);
        let mut cached = vec![CachedTile::default(); scene.tiles];
        for picture in &scene.pictures {
            let counted = check_frame(&scene, picture, &mut cached, &mut batches);
            (0..3).for_each(|at| decisions[at] += counted[at]);
        }
    }
    assert!(decisions.iter().all(|&count| count > 1000), "the scenes lack a decision: {decisions:?}");
    println!("tiles compared, by decision none, solid, paint: {decisions:?}, in {} batches", batches.count);
}
