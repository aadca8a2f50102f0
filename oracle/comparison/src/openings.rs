//! The opening of rows.

use reference::{
    painter::row::Row,
    plain::{Carry, Record},
    Table,
};

use crate::{
    given::{Fields, LentTable, State},
    judge,
    layers::{damaged, lent},
    library,
    memory::{any_queue, any_state, damaged_row, written, REFUSED},
    scene::{any_scene, word},
    tally::{caught, Kind, Tally},
};

pub fn compare(tally: &mut Tally) {
    tally.random("paint_tile_row, opening", opening);
    tally.random("paint_tile_row, opening with crowds of layers", crowd);
}

/// What an opening is given.
#[derive(Debug)]
pub struct Opening {
    pub tile_y: i32,
    pub from: i32,
    pub to: i32,
    pub row: Vec<u64>,
    pub table: LentTable,
}

/// The carries of the Rust. The table plays no part in an opening.
fn carries(opening: &Opening) -> Option<Vec<Carry>> {
    let Opening { tile_y, from, to, row, .. } = opening;
    let table = Table::new(&[]);
    caught(|| Row::open(*tile_y as usize, *from as usize, *to as usize, row, &table).queue())
}

/// One opening on both sides; after a refusal every number must be what it was.
pub fn check(kind: &mut Kind, opening: &Opening, may_be_short: bool) {
    let Opening { tile_y, from, to, row, table } = opening;
    let mut wanted = (any_queue(&mut kind.random, may_be_short), any_state(&mut kind.random));
    let (mut queue, mut state) = wanted.clone();
    let number = library::open_tile_row(*tile_y, *from, *to, row, table, &mut queue, &mut state);
    let expected =
        judge::opening(*tile_y, *from, *to, row, table, judge::is_short(queue.ids.len(), queue.covers.len()));
    kind.note(REFUSED[expected as usize]);
    if expected == 0 {
        let Some(carries) = carries(opening) else {
            kind.case(false, || format!("{opening:x?}: the Rust panics"));
            return;
        };
        wanted.1 =
            State { words: [*tile_y, *from, *to, *from, 0, 0].map(|word| word as u32), counts: [carries.len(), 0] };
        written(&mut wanted.0, carries.iter().map(|carry| (carry.id, carry.cover)));
    }
    kind.case(number == expected && (&queue, state) == (&wanted.0, wanted.1), || {
        format!(
            "{opening:x?}: expected {expected}, {:?}, the library {number}, {state:?}; queues the same: {}",
            wanted.1,
            queue == wanted.0
        )
    });
}

fn opening(kind: &mut Kind) {
    let random = &mut kind.random;
    let scene = any_scene(random);
    let picture = &scene.pictures[0];
    let (row, table) = (picture.words.clone(), lent(&picture.records));
    let mut opening = Opening { tile_y: scene.tile_y as i32, from: scene.from as i32, to: scene.to as i32, row, table };
    let is_damaged = random.once_in(2);
    if is_damaged && random.once_in(3) {
        let edges = [i32::MIN, -1, 0, 1, 5, 2046, 2047, 4095, 4096, 65536, i32::MAX];
        let edge = random.pick(&edges);
        match random.below(3) {
            0 => opening.tile_y = edge,
            1 => opening.from = edge,
            _ => opening.to = edge,
        }
    }
    if is_damaged && random.once_in(2) {
        opening.row = damaged_row(random, &opening.row);
    }
    if is_damaged && random.once_in(3) {
        opening.table = damaged(random, &picture.records);
    }
    let may_be_short = is_damaged && random.once_in(4);
    check(kind, &opening, may_be_short);
}

/// About 256 layers left of the first tile; at times one of them is too heavy besides.
fn crowd(kind: &mut Kind) {
    let random = &mut kind.random;
    let layers = 254 + random.below(5) as u32;
    let heavy = random.below(3 * layers as usize) as u32;
    let record =
        |id| Record { id, rule: 0, func: 0, span: 0, clipped: 0, fill: 0, mode: 0, unchanged: 0, color: [0.0; 4] };
    let records: Vec<Record> = (0..layers).map(record).collect();
    let mut row = Vec::new();
    for layer_id in 0..layers {
        let tile_x = random.within(-1..=1) as i16;
        let fields =
            Fields { layer_id, tile_x, tile_y: 0, local_x: 1, local_y: 2, double_area_multiplier: 3, cover: -32 };
        let count = if layer_id == heavy { 4 } else { 1 };
        row.extend((0..count).map(|_| word(fields)));
    }
    row.sort();
    let from = random.pick(&[2, 2, 2, 1]);
    let opening = Opening { tile_y: 0, from, to: 3, row, table: lent(&records) };
    check(kind, &opening, false);
}
