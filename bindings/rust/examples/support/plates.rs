//! A made plate of many rows, and its rows worked on several threads.

use std::{num::NonZeroUsize, ops::Range, sync::Mutex};

use tile_rows::{Area, BatchTile, Decision, Fields, Layer, LayerTable, PixelSegment, Plate, RowRefusal, Style};

use super::driven::FRAME;

/// How many layers the made plate has.
const LAYERS: u32 = 8;

/// The next number of a linear congruence, 0 to 65,535.
pub fn draw(state: &mut u32) -> u32 {
    *state = state.wrapping_mul(1_664_525).wrapping_add(1_013_904_223);
    *state >> 16
}

/// The segments of a plate, in order: closed outlines, so that a row's covers come back to 0.
pub fn made(seed: u32, rows: i16, tiles: i16) -> Vec<PixelSegment> {
    let mut state = seed;
    let mut segments = Vec::new();
    for tile_y in 0..rows {
        for layer_id in 0..LAYERS {
            let first = (draw(&mut state) % tiles as u32) as i16;
            let last = first + (draw(&mut state) % (tiles - first) as u32) as i16;
            let edges = [(first, draw(&mut state), 16), (last, draw(&mut state), -16)];
            for (tile_x, place, cover) in edges {
                let local_x = (place % 16) as u8;
                let edge = (0..16).map(|local_y| {
                    let fields =
                        Fields { layer_id, tile_x, tile_y, local_x, local_y, double_area_multiplier: 16, cover };
                    PixelSegment::new(fields).expect("each field is in its range")
                });
                segments.extend(edge);
            }
        }
    }
    segments.sort_by(PixelSegment::compare);
    segments
}

/// The table of the made plate.
pub fn table() -> LayerTable {
    let layers: Vec<Layer> = (0..LAYERS).map(|id| Layer::draw(id, Style::solid(FRAME.clear))).collect();
    LayerTable::new(&layers)
}

/// What is told of a tile.
#[derive(Clone, Copy, Debug, PartialEq)]
pub struct Told {
    pub tile: i32,
    pub decision: Decision,
    pub listed: usize,
    pub shown: usize,
    /// Used octets, summed over the painted layers.
    pub octets: u32,
}

impl Told {
    fn of(tile: BatchTile<'_>) -> Told {
        let BatchTile { tile: number, decision, listed, shown, .. } = tile;
        let octets = tile.painted().map(|layer| layer.mark.octets()).sum();
        Told { tile: number, decision, listed, shown, octets }
    }
}

/// The tiles of so many rows, worked on so many threads.
pub fn worked(
    segments: &[PixelSegment],
    rows: usize,
    range: Range<i32>,
    threads: usize,
) -> Result<Vec<Vec<Told>>, RowRefusal> {
    let told = Mutex::new(vec![Vec::new(); rows]);
    let threads = NonZeroUsize::new(threads).unwrap_or(NonZeroUsize::MIN);
    let area = Area::new(rows, range.end).cropped(0..rows, range);
    Plate::new(segments).work_on(threads, &table(), &area, &FRAME, |row, tile| {
        let tile = Told::of(tile);
        told.lock().expect("no worker panics")[row.index()].push(tile);
    })?;
    Ok(told.into_inner().expect("no worker panics"))
}
