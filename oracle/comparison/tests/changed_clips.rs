//! The smallest histories of W-208: where the Rust keeps a tile that is to be drawn afresh, and where it rightly does.

use comparison::{
    changed_clips::histories,
    models::{Models, Tables, Why},
};
use reference::{
    painter::row::Row,
    plain::{Cached, Decision, Worked},
    Table,
};

/// The second frame in the Rust and in the second model, and the bytes between the frames.
fn second_frames(scene: &comparison::scene::Scene) -> (Worked, Worked, Cached) {
    let [first, second] = &scene.pictures[..] else { panic!("two frames") };
    let tables = Tables::new(&first.records);
    let judged = Models::open(0, 0, 1, &first.words, &tables).work(0, &first.frame, Some(Cached::default()));
    let between = judged.worked.cached.expect("a cached tile is given").1;
    let rust = Row::open(0, 0, 1, &second.words, &Table::new(&second.records)).work(0, &second.frame, Some(between));
    let tables = Tables::new(&second.records);
    let judged = Models::open(0, 0, 1, &second.words, &tables).work(0, &second.frame, Some(between));
    let is_wrong = judged.left_out.as_ref().is_some_and(|left_out| left_out.why == Why::Clip && left_out.is_other);
    assert_eq!(is_wrong, !rust.is_same(&judged.worked));
    (rust, judged.worked, between)
}

#[test]
fn a_changed_clip_repaints_where_the_rust_keeps() {
    for (scene, is_wrong) in histories() {
        let (rust, second, _) = second_frames(&scene);
        assert!(matches!(rust.decision, Decision::None), "{scene:?}");
        let repaints = matches!(second.decision, Decision::Solid { .. });
        assert_eq!((repaints, rust.is_same(&second)), (is_wrong, !is_wrong), "{scene:?}");
    }
}

#[test]
fn the_bytes_of_a_widened_clip() {
    let (rust, second, between) = second_frames(&histories()[0].0);
    let painted = Cached([2, 2, 0, 0, 0, 0, 0, 0]);
    assert_eq!((between, rust.cached), (painted, Some((painted, painted))));
    assert_eq!(second.cached, Some((painted, Cached([3, 2, 0, 0, 255, 0, 0, 255]))));
    assert_eq!(second.settled, Some(([255, 0, 0, 255], true)));
}
