//! Batches at every edge, from both sides: of each refusal at the first tile and at a later one, and of each reason to
//! end.

use reference::plain::Record;

use crate::{
    batch_calls::{needed, Batch, TOLD},
    batches::check,
    given::{Fields, Queue, State, Work, LAYER_LIMIT},
    layers::lent,
    library,
    scene::word,
    tally::Kind,
};

/// The row that is damaged: tiles 2 to 5 of tile row 7.
const TILE_Y: i16 = 7;
const FROM: i32 = 2;
const TO: i32 = 6;

/// A call of a batch: what it reads, and what it may write.
#[derive(Clone)]
struct Call {
    work: Work,
    batch: Batch,
}

fn segment(layer_id: u32, tile_x: i16, local_y: u8, cover: i8) -> u64 {
    word(Fields { layer_id, tile_x, tile_y: TILE_Y, local_x: 3, local_y, double_area_multiplier: 9, cover })
}

/// Full covers of a layer from one tile up to another.
fn band(layer_id: u32, from: i16, to: i16) -> Vec<u64> {
    (0..16).flat_map(|y| [segment(layer_id, from, y, 16), segment(layer_id, to, y, -16)]).collect()
}

fn draw(id: u32, alpha: f32) -> Record {
    let color = [0.5, 0.25, 0.75, alpha];
    Record { id, rule: 0, func: 0, span: 0, clipped: 0, fill: 0, mode: 0, unchanged: 1, color }
}

/// Columns of so many entries, with numbers of their own.
fn queue(entries: usize) -> Queue {
    let ids = (0..entries as u32).map(|i| 9000 + i).collect();
    Queue { ids, covers: (0..16 * entries).map(|i| (i % 100) as i8).collect() }
}

/// An opened row of these words and layers, with room for all of its tiles.
fn call(mut words: Vec<u64>, records: &[Record], is_kept: bool) -> Call {
    words.sort();
    let (table, tiles) = (lent(records), (TO - FROM) as usize);
    let mut first = queue(256);
    let mut state = State { words: [0; 6], counts: [0; 2] };
    let number = library::open_tile_row(TILE_Y.into(), FROM, TO, &words, &table, &mut first, &mut state);
    assert_eq!(number, 0, "the row opens");
    let nothing = Queue { ids: Vec::new(), covers: Vec::new() };
    let work =
        Work { tile: FROM, row: words, table, is_kept, clear: [1.0; 4], previous: Some([1.0; 4]), queue: nothing };
    let planes = tiles * needed(&work);
    let batch = Batch {
        state,
        queues: [first, queue(256)],
        kept: [0, 1, 2, 3, 4, 5, 6, 7].repeat(tiles),
        told: (0..TOLD * tiles).map(|i| 7000 + i).collect(),
        bottoms: (0..4 * tiles).map(|i| -1.0 - i as f32).collect(),
        planes: (0..256 * planes).map(|i| -1000.0 - i as f32).collect(),
        painted: (0..2 * planes as u32).map(|i| 5000 + i).collect(),
        done: [91, 92, 93, 94, 95],
    };
    Call { work, batch }
}

/// An opaque layer through the first two tiles, a translucent one that begins left of them and ends in the last, and an
/// opaque one in the third: tiles that are painted, that mix a colour, and that mix none.
fn plain(is_kept: bool) -> Call {
    let words = [band(1, 2, 4), band(4, 0, 5), band(6, 4, 4)].concat();
    call(words, &[draw(1, 1.0), draw(4, 0.5), draw(6, 1.0)], is_kept)
}

/// Every call is asked for no tile, one, all but one, all, one more, and as many as there are numbers.
fn each(kind: &mut Kind, call: &Call) {
    let left = (TO - FROM) as usize;
    for tiles in [0, 1, left - 1, left, left + 1, usize::MAX] {
        check(kind, &call.work, tiles, &call.batch);
    }
}

/// The row worked up to a tile, so that each edge is met behind other tiles too.
fn past(call: &Call, tiles: usize) -> Call {
    let Call { work, batch, .. } = call;
    let mut at = call.clone();
    assert_eq!(crate::batch_calls::work_tiles(work, tiles, &mut at.batch), 0);
    let [worked, _, side, ..] = at.batch.done;
    assert_eq!(worked, tiles, "the tiles before are accepted");
    at.batch.queues.swap(0, side);
    at.work.tile += worked as i32;
    at.batch.kept = batch.kept.clone();
    at.batch.done = batch.done;
    at
}

pub fn edges(kind: &mut Kind) {
    for is_kept in [false, true] {
        for tiles in 0..=(TO - FROM) as usize {
            let call = past(&plain(is_kept), tiles);
            each(kind, &call);
            rooms(kind, &call);
            counts(kind, &call);
            queues(kind, &call);
            states(kind, &call);
            rows(kind, &call);
            tables(kind, &call);
        }
        for at in 0..(TO - FROM) as usize {
            tags(kind, &plain(is_kept), at);
        }
        for at in FROM..TO {
            listed(kind, is_kept, at as i16);
        }
    }
}

/// Each column at every length, alone and together with the one that has room for another number of tiles.
fn rooms(kind: &mut Kind, call: &Call) {
    let Batch { kept, told, bottoms, planes, painted, .. } = &call.batch;
    for len in 0..=kept.len() {
        let mut call = call.clone();
        call.batch.kept.truncate(len);
        each(kind, &call);
    }
    for len in 0..=told.len() {
        let mut call = call.clone();
        call.batch.told.truncate(len);
        each(kind, &call);
    }
    for len in 0..=bottoms.len() {
        let mut call = call.clone();
        call.batch.bottoms.truncate(len);
        each(kind, &call);
    }
    for len in 0..=painted.len() {
        let mut call = call.clone();
        call.batch.painted.truncate(len);
        each(kind, &call);
    }
    for (len, beside) in (0..=planes.len() / 256).flat_map(|len| [(len, 0), (len, 1), (len, 255)]) {
        let mut call = call.clone();
        call.batch.planes.truncate(256 * len + beside);
        each(kind, &call);
    }
}

/// The table's count, below and above what it has, with as many planes as a tile needs then, one fewer and one more. A
/// count below leaves layers out, a count above is a short table.
fn counts(kind: &mut Kind, call: &Call) {
    for count in [0, 1, 2, 3, 4, 255, 256, 257, usize::MAX] {
        let mut call = call.clone();
        call.work.table.count = count;
        let needed = needed(&call.work);
        for planes in [needed.saturating_sub(1), needed, needed + 1, 2 * needed] {
            call.batch.planes = vec![7.0; 256 * planes];
            call.batch.painted = vec![7; 2 * planes];
            each(kind, &call);
        }
    }
}

/// Either queue at and beside 256 entries; how many carries the first holds, and their order.
fn queues(kind: &mut Kind, call: &Call) {
    for side in 0..2 {
        for (ids, covers) in [(0, 0), (255, 4096), (256, 4095), (256, 4096), (0, 4096), (256, 0), (255, 4080)] {
            let mut call = call.clone();
            call.batch.queues[side].ids.truncate(ids);
            call.batch.queues[side].covers.truncate(covers);
            each(kind, &call);
        }
    }
    for held in [0, 1, 2, 255, 256, 257, 258, usize::MAX] {
        for first in [0, 1, 2, 3] {
            let mut call = call.clone();
            call.batch.state.counts[0] = held;
            call.batch.queues[0].ids[1] = first;
            each(kind, &call);
        }
    }
}

/// Tile y, from, to, the next tile and the tile's number at and beside their edges; a clip that the state tells of.
fn states(kind: &mut Kind, call: &Call) {
    let edges = |word: u32| [0, word.wrapping_sub(1), word + 1, 2046, 2047, 4094, 4095, 4096, u32::MAX];
    for (at, held) in call.batch.state.words.into_iter().enumerate().take(4) {
        for word in edges(held) {
            let mut call = call.clone();
            call.batch.state.words[at] = word;
            each(kind, &call);
            if at == 3 {
                call.work.tile = word as i32;
                each(kind, &call);
            }
        }
    }
    let tile = call.work.tile;
    for tile in [i32::MIN, -1, 0, tile - 1, tile + 1, TO, i32::MAX] {
        let mut call = call.clone();
        call.work.tile = tile;
        each(kind, &call);
    }
    for (clip, last) in [(1, 0), (1, LAYER_LIMIT), (2, 7), (u32::MAX, u32::MAX), (0, 5)] {
        let mut call = call.clone();
        (call.batch.state.words[4], call.batch.state.words[5]) = (clip, last);
        call.batch.state.counts[1] = 4711;
        each(kind, &call);
    }
}

/// The row's last two words out of order or the same, its first or its last of another tile row; words in any order of
/// what lies below the layer.
fn rows(kind: &mut Kind, call: &Call) {
    let last = call.work.row.len() - 1;
    let mut change = |change: &dyn Fn(&mut Vec<u64>)| {
        let mut call = call.clone();
        change(&mut call.work.row);
        each(kind, &call);
    };
    change(&|row| row.swap(0, last));
    change(&|row| row[last] = row[last - 1]);
    change(&|row| row[last] = row[last - 1] - (1 << 20));
    change(&|row| row[last] += 1 << 53);
    change(&|row| row[0] -= 1 << 53);
    change(&|row| row[..16].reverse());
    change(&Vec::clear);
}

/// Each word of the first and the last record at its limit and past it; records out of order, twice, or missing.
fn tables(kind: &mut Kind, call: &Call) {
    let (layers, colors) = (call.work.table.layers.len(), call.work.table.colors.len());
    let limits = [LAYER_LIMIT, 1, 1, LAYER_LIMIT, 1, 2, 15, 1];
    let mut change = |change: &dyn Fn(&mut Call)| {
        let mut call = call.clone();
        change(&mut call);
        each(kind, &call);
    };
    for record in [0, layers - 8] {
        for (at, limit) in limits.into_iter().enumerate() {
            for word in [0, limit, limit + 1, u32::MAX] {
                change(&|call| call.work.table.layers[record + at] = word);
            }
        }
    }
    for len in layers - 8..layers {
        change(&|call| call.work.table.layers.truncate(len));
    }
    for len in colors - 4..colors {
        change(&|call| call.work.table.colors.truncate(len));
    }
}

/// The tag of a tile, at and past its highest.
fn tags(kind: &mut Kind, call: &Call, at: usize) {
    for tag in 0..=255 {
        let mut call = call.clone();
        call.batch.kept[8 * at] = tag;
        each(kind, &call);
    }
}

/// What a tile lists, at and past its edges: 255, 256 and 257 layers; a layer that the table has and one that it lacks;
/// covers of 127 and 128, in segments and with a carry.
fn listed(kind: &mut Kind, is_kept: bool, at: i16) {
    for (layers, alpha) in [(255, 0.5), (256, 0.5), (257, 0.5), (256, 1.0), (257, 1.0)] {
        let words = (0..layers).map(|id| segment(id, at, 5, 1)).collect();
        let mut call = call(words, &(0..300).map(|id| draw(id, alpha)).collect::<Vec<_>>(), is_kept);
        each(kind, &call);
        for planes in [255, 256, 511, 512] {
            call.batch.planes.truncate(256 * planes);
            each(kind, &call);
        }
    }
    let records = [draw(1, 1.0), draw(4, 0.5), draw(6, 1.0)];
    for id in [0, 1, 3, 5, 6, 7, LAYER_LIMIT] {
        each(kind, &call([band(4, 3, 5), vec![segment(id, at, 5, 1)]].concat(), &records, is_kept));
    }
    for from in [at, -1, 1] {
        for (loads, cover) in [(3, 18), (3, 19), (3, -18), (3, -19), (3, -32), (4, 16), (4, 17)] {
            let heavy = (0..3).map(|_| segment(4, at, 5, 32 - 1));
            let words = [vec![segment(4, from, 5, 16)], heavy.collect(), vec![segment(4, at, 5, cover)]].concat();
            let more = (3..loads).map(|_| segment(4, at, 5, 2));
            each(kind, &call(words.into_iter().chain(more).collect(), &records, is_kept));
        }
    }
}
