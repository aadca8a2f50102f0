//! Tiles kept from frame to frame, among the stored answers: whether a count may stay, by the second writing; and the
//! histories A to H of docs/DIFFERENCES.md, frame by frame with the bytes that the last frame left, by the Rust and,
//! where a clip is changed, by the second model.

use reference::plain::{Cached, Worked};

use crate::{
    kept_counts::{any_call, damage, expected, CountCall, Members},
    kept_histories::{histories, kind_of, Shot, BLACK},
    models::{Models, Tables},
    random::Random,
    scene::{Picture, Scene},
    stored_lines::{bytes, Line},
    stored_rows::row,
};

/// How many layers a stored list has at most.
const LAYERS: usize = 12;

/// A call that is short enough to be stored; its columns have 256 entries.
pub fn asking(random: &mut Random) -> Line {
    loop {
        let mut call = any_call(random);
        if random.once_in(2) {
            damage(random, &mut call);
        }
        let is_small = |list: &Members| list.count <= LAYERS && list.ids.len() >= 256 && list.kinds.len() >= 256;
        if is_small(&call.last) && is_small(&call.today) {
            return asked(&call);
        }
    }
}

fn asked(call: &CountCall) -> Line {
    let CountCall { last, today, is_kept, kept } = call;
    let (number, stays, after) = expected(call);
    let ids = |list: &Members| list.ids[..list.count].iter().map(|&id| id.into()).collect::<Vec<u64>>();
    let given = [
        vec![last.count as u64, today.count as u64, (*is_kept).into()],
        bytes(&kept.0),
        ids(last),
        bytes(&last.kinds[..last.count]),
        ids(today),
        bytes(&today.kinds[..today.count]),
    ];
    Line {
        given: given.concat(),
        answer: [vec![number.into(), (number == 0 && stays).into()], bytes(&after.0)].concat(),
    }
}

/// Each history as a caller has it who leaves the answers of `keep_count` out; and behind them A and D, in which a listed
/// layer left and one became another kind, with them: the tile is drawn afresh.
pub fn lines(random: &mut Random) -> Vec<String> {
    let histories = histories();
    let plain: Vec<String> = histories.iter().map(|shots| history(random, shots, false)).collect();
    let mended = [0, 3].map(|at| history(random, &histories[at], true));
    plain.into_iter().chain(mended).collect()
}

/// A tile from frame to frame: its bytes, and the list of its last work.
#[derive(Clone, Default)]
struct Tile {
    cached: Cached,
    last: Option<Vec<(u32, u8)>>,
}

fn history(random: &mut Random, shots: &[Shot], is_asked: bool) -> String {
    let mut tiles = vec![Tile::default(); shots[0].tiles.1];
    let frames: Vec<String> =
        shots.iter().enumerate().map(|(at, shot)| frame(random, shot, at > 0, is_asked, &mut tiles)).collect();
    format!("{:x} {}", shots.len(), frames.join(" "))
}

/// The askings before the works, the row, and its settlings.
fn frame(random: &mut Random, shot: &Shot, has_last: bool, is_asked: bool, tiles: &mut [Tile]) -> String {
    let (from, to) = shot.tiles;
    let picture = shot.picture(has_last.then_some(BLACK));
    let (mut asks, mut settles) = (Vec::new(), Vec::new());
    let tables = Tables::new(&picture.records);
    let mut models = Models::open(0, from, to, &picture.words, &tables);
    let mut cached: Vec<Cached> = tiles.iter().map(|tile| tile.cached).collect();
    for at in from..to {
        let worked = models.work(at, &picture.frame, Some(tiles[at].cached)).worked;
        let today = members(&worked, &picture);
        if let Some(last) = tiles[at].last.replace(today.clone()) {
            let [last, today] = [&last, &today].map(|list| Members::new(list));
            let call = CountCall { last, today, is_kept: true, kept: cached[at] };
            asks.push(asked(&call).text());
            if is_asked {
                cached[at] = expected(&call).2;
            }
        }
    }
    let mut again = Models::open(0, from, to, &picture.words, &tables);
    for (at, &bytes) in (from..to).zip(&cached[from..to]) {
        let worked = again.work(at, &picture.frame, Some(bytes)).worked;
        settles.extend(settled(&worked).map(|line| line.text()));
    }
    let scene = Scene { tile_y: 0, from, to, tiles: tiles.len(), caches: true, pictures: Vec::new() };
    let row = row(random, &scene, &picture, &mut cached, |_, _, _| Vec::new());
    tiles.iter_mut().zip(cached).for_each(|(tile, cached)| tile.cached = cached);
    format!("ASKED {} ROW {row} SETTLED {}", block(&asks), block(&settles))
}

fn block(lines: &[String]) -> String {
    [vec![format!("{:x}", lines.len())], lines.to_vec()].concat().join(" ")
}

fn members(worked: &Worked, picture: &Picture) -> Vec<(u32, u8)> {
    let kind = |id| kind_of(picture.records.iter().find(|record| record.id == id).unwrap());
    worked.list.iter().map(|entry| (entry.id, kind(entry.id))).collect()
}

fn settled(worked: &Worked) -> Option<Line> {
    let (display, is_written) = worked.settled?;
    let (before, after) = worked.cached?;
    let given = [vec![1], bytes(&before.0), bytes(&display)].concat();
    Some(Line { given, answer: [vec![0, is_written.into()], bytes(&after.0)].concat() })
}
