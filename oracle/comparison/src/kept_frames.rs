//! Random histories of up to four frames, each tile's cached bytes kept from frame to frame: the library's work beside
//! the Rust's, and what the tile shows beside a fresh painting. Each is run with the keep rule, which is asked by the
//! exports, and without it.

use reference::plain::{Cached, Decision, Worked};

use crate::{
    any_histories::{any_history, TILES},
    kept_counts::{keep_count, stays, CountCall, Members},
    kept_histories::Shot,
    kept_rule::{shown_layers, Last},
    models::{Models, Tables},
    rows::{work, Pair},
    scene::Scene,
    tally::{Kind, Tally},
};

pub fn compare(tally: &mut Tally) {
    tally.random("kept frames", |kind| {
        let history = any_history(&mut kind.random);
        run(kind, &history, &WITHOUT);
        run(kind, &history, &WITH);
    });
}

/// How a history is run, and the names of what it meets.
struct Way {
    is_by_rule: bool,
    tile: &'static str,
    kept: &'static str,
    wrong: &'static str,
}

const WITHOUT: Way = Way {
    is_by_rule: false,
    tile: "tiles without the rule",
    kept: "kept without it",
    wrong: "kept wrongly without it",
};

const WITH: Way =
    Way { is_by_rule: true, tile: "tiles with the rule", kept: "kept with it", wrong: "kept wrongly with it" };

/// A tile from frame to frame.
#[derive(Clone, Default)]
struct Tile {
    cached: Cached,
    last: Option<Last>,
    shown: Vec<[u8; 4]>,
}

/// The pixels of a tile that was worked, where it is drawn.
fn drawn(models: &mut Models<'_>, worked: &Worked) -> Option<Vec<[u8; 4]>> {
    match (worked.settled, worked.decision) {
        (Some((bytes, is_written)), _) => is_written.then(|| vec![bytes; 256]),
        (None, Decision::Paint) => Some(models.pixels()),
        (None, _) => None,
    }
}

fn run(kind: &mut Kind, history: &[Shot], way: &Way) {
    let mut tiles = vec![Tile::default(); TILES];
    for (number, shot) in history.iter().enumerate() {
        frame(kind, number, shot, &mut tiles, way);
    }
}

fn frame(kind: &mut Kind, number: usize, shot: &Shot, tiles: &mut [Tile], way: &Way) {
    let (from, to) = shot.tiles;
    let mut picture = shot.picture(None);
    let tables = Tables::new(&picture.records);
    let scene = Scene { tile_y: 0, from, to, tiles: TILES, caches: true, pictures: Vec::new() };
    let opened = picture.clone();
    let mut pair = Pair::open(&mut kind.random, &scene, &opened, &tables);
    let mut again = Models::open(0, from, to, &opened.words, &tables);
    for (tile, held) in (from..to).zip(&mut tiles[from..to]) {
        let afresh = again.work(tile, &picture.frame, None).worked;
        let due = drawn(&mut again, &afresh).expect("without a cached tile it is drawn");
        let now = Last { frame: number, from, clear: shot.clear, shown: shown_layers(&afresh, &picture.records) };
        if way.is_by_rule {
            ask(kind, held, &now);
        }
        picture.frame.previous_clear = held.last.as_ref().map(|last| last.clear);
        let worked = work(kind, &mut pair, tile, &picture, true, &mut held.cached);
        let Some(judged) = worked else { return };
        kind.note(way.tile);
        match drawn(&mut pair.models, &judged.worked) {
            Some(pixels) => held.shown = pixels,
            None => kind.note(way.kept),
        }
        let is_right = held.shown == due;
        if !is_right {
            kind.note(way.wrong);
        }
        kind.case(is_right || !way.is_by_rule, || format!("tile {tile} of {:?} is kept wrongly", shot.layers));
        held.last = Some(now);
        picture.frame.previous_clear = None;
    }
}

/// The rule, before the work: the shown layers are alike where none is missing either way, as the same kind, which is 2
/// for one that needs a clip. The library's answers are those of the second writing.
fn ask(kind: &mut Kind, held: &mut Tile, now: &Last) {
    let Some(last) = held.last.as_ref().filter(|last| last.is_before(now)) else {
        held.cached.0[0] &= 1;
        return;
    };
    let members = |last: &Last| -> Vec<_> { last.shown.iter().map(|&(id, needs)| (id, 2 * u8::from(needs))).collect() };
    let lists = [members(last), members(now)];
    let before = held.cached;
    for [one, other] in [[0, 1], [1, 0]].map(|ends| ends.map(|at| &lists[at])) {
        let call = CountCall { last: Members::new(one), today: Members::new(other), is_kept: true, kept: held.cached };
        let answer = keep_count(&call);
        kind.case((answer.0, answer.1) == (0, stays(one, other)), || format!("{call:?}: the library {answer:?}"));
        held.cached = answer.2;
    }
    let mut wanted = before;
    wanted.0[0] &= if last.may_keep(now) { 3 } else { 1 };
    kind.case(held.cached == wanted, || format!("{last:?}, {now:?}: {before:?} became {:?}", held.cached));
}
