//! The row driver of the Rust itself: it does what `paint_tile_row` does, and gives the worked cases. Beside it the second
//! model, where windings above 1 are full.

use comparison::{
    given::Fields,
    jobs::line,
    models::{Models, Tables},
    random::Random,
    scene::{any_scene, word, Picture, Scene},
};
use reference::{
    cpu::RGBA,
    painter::row::{paint_row, Frame, Row},
    plain::{Cached, Decision, Record},
    Table,
};

const FRAME: Frame = Frame { clear: [0.0, 0.0, 0.0, 1.0], previous_clear: None, channels: RGBA };

fn draw(id: u32) -> Record {
    Record { id, rule: 0, func: 0, span: 0, clipped: 0, fill: 0, mode: 0, unchanged: 0, color: [0.0, 0.0, 0.0, 1.0] }
}

fn clip(id: u32, span: u32) -> Record {
    Record { func: 1, span, ..draw(id) }
}

/// Sixteen segments of a layer, one in each pixel row.
fn column(layer_id: u32, tile_x: i16, local_x: u8, cover: i8) -> Vec<u64> {
    let fields = |local_y| Fields { layer_id, tile_x, tile_y: 0, local_x, local_y, double_area_multiplier: 32, cover };
    (0..16).map(|local_y| word(fields(local_y))).collect()
}

fn row_of(mut parts: Vec<Vec<u64>>) -> Vec<u64> {
    parts.sort();
    parts.concat()
}

#[test]
fn the_row_of_the_scope() {
    let table = Table::new(&[draw(1)]);
    let words = row_of(vec![column(1, 0, 0, 16), column(1, 2, 8, -16)]);
    let mut row = Row::open(0, 0, 4, &words, &table);
    let lines: Vec<String> = (0..4).map(|tile| line(tile, &row.work(tile, &FRAME, None))).collect();
    assert_eq!(lines, ["0 paint 1 1 32 1", "1 solid 1 1 0 1", "2 paint 1 1 16 0", "3 solid 0 0 0 0"]);
}

#[test]
fn a_skipped_clip_leaves_its_draw_without_one() {
    let table = Table::new(&[clip(1, 5), draw(2), Record { clipped: 1, ..draw(3) }]);
    let words = row_of(vec![column(1, -1, 0, 8), column(2, -1, 0, 16), column(3, -1, 0, 16)]);
    let mut row = Row::open(0, 0, 1, &words, &table);
    assert_eq!(line(0, &row.work(0, &FRAME, None)), "0 paint 3 2 32 3");
}

/// The lines of tiles 0 to 2 over two opaque layers, by the Rust alone and by the two models.
fn lines_over_layer_1(words: &[u64]) -> [Vec<String>; 2] {
    let records = [draw(1), draw(2)];
    let (table, tables) = (Table::new(&records), Tables::new(&records));
    let mut rust = Row::open(0, 0, 3, words, &table);
    let mut models = Models::open(0, 0, 3, words, &tables);
    [
        (0..3).map(|tile| line(tile, &rust.work(tile, &FRAME, None))).collect(),
        (0..3).map(|tile| line(tile, &models.work(tile, &FRAME, None).worked)).collect(),
    ]
}

/// W-205: a frame drawn twice in one direction is full, and what lies under it is passed over.
#[test]
fn a_double_winding_is_full() {
    let words = row_of(vec![column(1, 0, 0, 16), column(2, 0, 0, 16), column(2, 0, 0, 16)]);
    let [rust, judged] = lines_over_layer_1(&words);
    assert_eq!(rust, ["0 paint 2 2 64 2", "1 paint 2 2 64 2", "2 paint 2 2 64 2"]);
    assert_eq!(judged, ["0 paint 2 2 64 2", "1 solid 2 1 0 2", "2 solid 2 1 0 2"]);
}

/// One row of 15 among fifteen of 32 is not.
#[test]
fn a_row_of_15_is_not_full() {
    let [mut once, mut twice] = [column(2, 0, 0, 16), column(2, 0, 0, 16)];
    once[3] -= 1;
    twice.remove(3);
    let [rust, judged] = lines_over_layer_1(&row_of(vec![column(1, 0, 0, 16), once, twice]));
    assert_eq!(rust, judged);
    assert_eq!(judged[1], "1 paint 2 2 64 2");
}

/// P7: the first clip's last layer stands while it lives, so a clipped draw past it lacks its clip.
#[test]
fn a_second_clip_keeps_the_end_of_the_first() {
    let table = Table::new(&[clip(1, 1), clip(2, 5), Record { clipped: 1, ..draw(3) }]);
    let words = row_of(vec![column(1, -1, 0, 8), column(2, -1, 0, 8), column(3, -1, 0, 16)]);
    let mut row = Row::open(0, 0, 1, &words, &table);
    let worked = row.work(0, &FRAME, None);
    let [_, second, third] = &worked.painted[..] else { panic!("{:?}", worked.list) };
    assert_eq!((second.clip, third.clip, third.mark), (Some(2), None, 0));
    assert!(third.plane.iter().all(|&coverage| coverage == 1.0));
}

/// P12: the same bytes settled twice.
#[test]
fn a_solid_tile_is_written_once() {
    let table = Table::new(&[]);
    let first = Row::open(0, 0, 1, &[], &table).work(0, &FRAME, Some(Cached::default()));
    let (_, kept) = first.cached.unwrap();
    let second = Row::open(0, 0, 1, &[], &table).work(0, &FRAME, Some(kept));
    assert!(first.settled.unwrap().1);
    assert!(!second.settled.unwrap().1);
    assert_eq!(second.cached.unwrap().1, kept);
}

/// Display bytes of the row as the driver has them, over what `buffer` held.
fn driven(scene: &Scene, picture: &Picture, cached: &mut Option<Vec<Cached>>, buffer: &mut [u8]) {
    let table = Table::new(&picture.records);
    let mut row = Row::open(scene.tile_y, scene.from, scene.to, &picture.words, &table);
    for tile in scene.from..scene.to {
        let worked = row.work(tile, &picture.frame, cached.as_ref().map(|cached| cached[tile]));
        if let (Some(cached), Some((_, after))) = (cached.as_mut(), worked.cached) {
            cached[tile] = after;
        }
        let pixels = match worked.settled {
            Some((bytes, true)) => vec![bytes; 256],
            _ if matches!(worked.decision, Decision::Paint) => row.pixels(picture.frame.channels),
            _ => continue,
        };
        for (place, pixel) in pixels.iter().enumerate() {
            let at = (place % 16 * scene.tiles + tile) * 64 + place / 16 * 4;
            buffer[at..at + 4].copy_from_slice(pixel);
        }
        for painted in &worked.painted {
            let again = row.paint(painted.id);
            assert_eq!((again.mark, again.clip), (painted.mark, painted.clip));
            assert_eq!(again.plane.map(f32::to_bits), painted.plane.map(f32::to_bits));
        }
    }
}

/// Pixel by pixel and byte by byte, over several frames.
#[test]
fn the_driver_does_what_paint_tile_row_does() {
    let mut random = Random::new(11);
    let mut decisions = [0; 3];
    for _ in 0..4000 {
        let scene = any_scene(&mut random);
        let start = vec![Cached::default(); scene.tiles];
        let mut cached = scene.caches.then(|| start.clone());
        let mut whole_cached = cached.clone();
        let mut buffer = vec![7; scene.tiles * 1024];
        let mut whole_buffer = buffer.clone();
        for picture in &scene.pictures {
            driven(&scene, picture, &mut cached, &mut buffer);
            let table = Table::new(&picture.records);
            let crop = Some((scene.from, scene.to));
            whole_cached = paint_row(
                scene.tile_y,
                scene.tiles,
                crop,
                &picture.words,
                &table,
                &picture.frame,
                whole_cached.as_deref(),
                &mut whole_buffer,
            );
            assert_eq!(cached, whole_cached, "{scene:?}");
            assert_eq!(buffer, whole_buffer, "{scene:?}");
            count(&scene, picture, &mut decisions);
        }
    }
    assert!(decisions.iter().all(|&count| count > 300), "the scenes lack a decision: {decisions:?}");
}

/// How often each decision comes up.
fn count(scene: &Scene, picture: &Picture, decisions: &mut [u32; 3]) {
    let table = Table::new(&picture.records);
    let mut row = Row::open(scene.tile_y, scene.from, scene.to, &picture.words, &table);
    for tile in scene.from..scene.to {
        let kept = Cached([2, picture.records.len() as u8, 0, 0, 0, 0, 0, 0]);
        let at = match row.work(tile, &picture.frame, Some(kept)).decision {
            Decision::None => 0,
            Decision::Solid { .. } => 1,
            Decision::Paint => 2,
        };
        decisions[at] += 1;
    }
}
