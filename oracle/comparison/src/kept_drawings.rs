//! How the Rust draws a tile afresh: the decision and every call, and the bytes of its own buffer; and two frames of a
//! tile by the crate's `TileHistory` beside them.

use reference::{
    painter::row::{paint_row, Row},
    plain::{Cached, Decision, Record, Worked},
    Table,
};
use tile_rows::{segment, settle, CachedTile, Color, Decision as Decided, Frame, LayerTable, Settled, TileHistory};

use crate::{kept_histories::Shot, layers::lent, scene::Picture};

/// A painted layer: its style, and of a tile that is painted its coverages, its mark and the mask that cuts it.
#[derive(Clone, Debug, PartialEq)]
struct Call {
    id: u32,
    /// Func, fill and mode; of a clip the first alone.
    style: [u32; 3],
    color: [u32; 4],
    needs_clip: bool,
    painted: Option<(Vec<u32>, u32)>,
    mask: Option<Vec<u32>>,
}

/// By which decision a tile is drawn, on which bottom colour, with how many shown layers before those to mix, by which
/// calls, and under which clear colour. Numbers are told by their bits.
#[derive(Clone, Debug, PartialEq)]
pub struct Drawing {
    is_solid: bool,
    bottom: [u32; 4],
    before: usize,
    calls: Vec<Call>,
    clear: [u32; 4],
}

impl Drawing {
    /// Of a work without a cached tile. `shown` has its shown layers and whether each needs a clip.
    pub fn new(worked: &Worked, picture: &Picture, shown: &[(u32, bool)]) -> Self {
        let (is_solid, bottom, before) = match worked.decision {
            Decision::Solid { bottom, before, .. } => (true, bottom, before),
            Decision::Paint => (false, [0.0; 4], 0),
            Decision::None => panic!("it is drawn"),
        };
        let record = |id| picture.records.iter().find(|record| record.id == id).expect("a listed layer has a record");
        let mut calls: Vec<Call> = shown.iter().map(|&(id, needs_clip)| Call::of(record(id), needs_clip)).collect();
        let mut mask = None;
        for (call, painted) in calls.iter_mut().zip(&worked.painted) {
            let plane: Vec<u32> = painted.plane.iter().map(|number| number.to_bits()).collect();
            if call.style[0] == 1 {
                mask = Some(plane.clone());
            } else if painted.needs_clip && painted.clip.is_some() {
                call.mask.clone_from(&mask);
            }
            call.painted = Some((plane, painted.mark));
        }
        let bits = |color: [f32; 4]| color.map(f32::to_bits);
        Self { is_solid, bottom: bits(bottom), before, calls, clear: bits(picture.frame.clear) }
    }
}

impl Call {
    fn of(record: &Record, needs_clip: bool) -> Self {
        let is_clip = record.func == 1;
        let style = if is_clip { [1, 0, 0] } else { [0, record.fill, record.mode] };
        let color = if is_clip { [0; 4] } else { record.color.map(f32::to_bits) };
        Self { id: record.id, style, color, needs_clip, painted: None, mask: None }
    }
}

/// The bytes of the tiles of a row, 16 lines of 64 each.
pub type Bytes = Vec<u8>;

/// The tiles of a frame drawn afresh by `paint_tile_row` into a buffer of its own; the bytes of each.
pub fn drawn_afresh(picture: &Picture, tiles: (usize, usize)) -> Vec<Bytes> {
    let mut buffer = vec![7; tiles.1 * 1024];
    let table = Table::new(&picture.records);
    paint_row(0, tiles.1, Some(tiles), &picture.words, &table, &picture.frame, None, &mut buffer);
    (tiles.0..tiles.1).map(|tile| tile_bytes(&buffer, tiles.1, tile)).collect()
}

fn tile_bytes(buffer: &[u8], tiles: usize, tile: usize) -> Bytes {
    buffer.chunks_exact(tiles * 64).flat_map(|line| &line[tile * 64..][..64]).copied().collect()
}

/// The tiles of a frame worked by the Rust without cached tiles.
pub fn worked_afresh(picture: &Picture, (from, to): (usize, usize)) -> Vec<Worked> {
    let table = Table::new(&picture.records);
    let mut row = Row::open(0, from, to, &picture.words, &table);
    (from..to).map(|tile| row.work(tile, &picture.frame, None)).collect()
}

pub fn table_of(records: &[Record]) -> LayerTable {
    let words = lent(records);
    LayerTable::from_words(words.layers, words.colors, words.count)
}

/// A tile from frame to frame, by its history, and the bytes that it shows.
#[derive(Clone, Default)]
pub struct Shown {
    pub history: TileHistory,
    pub bytes: Bytes,
}

/// Whether a tile was kept, and by what.
#[derive(Clone, Copy, Debug, Eq, PartialEq)]
pub enum Kept {
    /// Decided as none.
    None,
    /// Solid, and settled as keep.
    Settled,
    Drawn,
}

/// A frame by histories. Each worked tile is drawn where that is decided, by the Rust's bytes; then it must show what a
/// fresh painting shows. What was done with each.
pub fn show(number: usize, shot: &Shot, tiles: &mut [Shown]) -> Vec<Kept> {
    let (from, to) = shot.tiles;
    let picture = shot.picture(None);
    let table = table_of(&picture.records);
    let segments = segment::segments_of(&picture.words);
    let mut row = tile_rows::Row::open(segments, &table, 0, from as i32..to as i32).expect("it meets no condition");
    let due = drawn_afresh(&picture, shot.tiles);
    let one = |((tile, shown), due): ((usize, &mut Shown), Bytes)| {
        let clear = Color::from(shot.clear);
        let worked = shown.history.work(&mut row, tile as i32, number as u64, clear).expect("it meets no condition");
        let kept = match worked.decision {
            Decided::None => Kept::None,
            Decided::Solid { .. } => match shown.history.settle([due[0], due[1], due[2], due[3]]) {
                Ok(Settled::Keep) => Kept::Settled,
                _ => Kept::Drawn,
            },
            Decided::Paint => Kept::Drawn,
        };
        if kept == Kept::Drawn {
            shown.bytes.clone_from(&due);
        }
        assert!(
            shown.bytes == due,
            "tile {tile} of frame {number} is kept as {kept:?} and shows another frame: {shot:?}"
        );
        kept
    };
    (from..to).zip(&mut tiles[from..to]).zip(due).map(one).collect()
}

/// A tile by a cached tile alone, as the Rust's caller has it: whether the second frame decides it as none.
pub fn is_none_by_passes(shots: &[Shot; 2]) -> bool {
    let (mut cached, mut last) = (CachedTile::default(), None);
    let mut is_none = false;
    for shot in shots {
        let picture = shot.picture(None);
        let table = table_of(&picture.records);
        let segments = segment::segments_of(&picture.words);
        let mut row = tile_rows::Row::open(segments, &table, 0, 0..1).expect("it meets no condition");
        let clear = Color::from(shot.clear);
        let frame = Frame { clear, previous_clear: last.replace(clear) };
        let worked = row.work(0, &frame, Some(&mut cached)).expect("it meets no condition");
        is_none = worked.decision == Decided::None;
        if let Decided::Solid { .. } = worked.decision {
            settle(Some(&mut cached), [0; 4]).expect("the tag is its own");
        }
    }
    is_none
}

/// What the Rust leaves of two frames in one buffer, with its own cached tiles: the bytes, and those that it keeps.
pub fn by_the_rust(shots: &[Shot; 2]) -> (Bytes, [u8; 8]) {
    let (mut buffer, mut last, mut cached) = (vec![7; 1024], None, vec![Cached::default()]);
    for shot in shots {
        let picture = shot.picture(last.replace(shot.clear));
        let table = Table::new(&picture.records);
        let painted = paint_row(0, 1, Some((0, 1)), &picture.words, &table, &picture.frame, Some(&cached), &mut buffer);
        cached = painted.expect("cached tiles are given");
    }
    (buffer, cached[0].0)
}
