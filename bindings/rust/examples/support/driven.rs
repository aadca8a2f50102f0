//! A row driven from a job: what the row program prints of it, and all that the inspector shows.

use std::ops::Range;

use tile_rows::{
    CachedTile, Carry, Color, Decision, Frame, LayerTable, Listed, Mark, PixelSegment, Plane, Refusal, Row,
};

use super::job::Job;

/// The clear colour of the row program; it has no frame before.
pub const FRAME: Frame = Frame { clear: Color { r: 0.0, g: 0.0, b: 0.0, a: 1.0 }, previous_clear: None };

/// The line of names of the row program.
pub const NAMES: &str = "tile op listed shown octets carried";

/// A tile that was worked.
#[derive(Clone, Debug)]
pub struct Tile {
    pub tile: i32,
    pub decision: Decision,
    /// Ascending: the bottom layer first.
    pub list: Vec<Entry>,
    pub incoming: Vec<Carry>,
    pub carries: Vec<Carry>,
}

/// A listed layer.
#[derive(Clone, Debug)]
pub struct Entry {
    pub listed: Listed,
    /// Its mark and plane, where the tile is painted and it is shown.
    pub painted: Option<(Mark, Plane)>,
}

impl Tile {
    pub fn shown(&self) -> usize {
        self.list.iter().filter(|entry| entry.listed.is_shown()).count()
    }

    /// Used octets, summed over the painted layers.
    pub fn octets(&self) -> u32 {
        self.list.iter().filter_map(|entry| entry.painted.as_ref()).map(|(mark, _)| mark.octets()).sum()
    }

    /// Its line: tile, decision, listed, shown, octets, carried.
    pub fn line(&self) -> String {
        let Tile { tile, decision, list, carries, .. } = self;
        let (shown, octets) = (self.shown(), self.octets());
        format!("{tile} {} {} {shown} {octets} {}", decision.word(), list.len(), carries.len())
    }
}

/// A row that was driven up to its end or to a refusal.
#[derive(Clone, Debug)]
pub struct Driven {
    /// What the row opened with; nothing where the opening was turned down.
    pub opening: Option<Vec<Carry>>,
    pub tiles: Vec<Tile>,
    pub refusal: Option<Refusal>,
}

/// Works the next tile, and paints its shown layers where that is due.
pub fn work(row: &mut Row<'_>, tile: i32) -> Result<Tile, Refusal> {
    work_in(row, tile, &FRAME, None)
}

/// The same in a frame, with a cached tile.
pub fn work_in(row: &mut Row<'_>, tile: i32, frame: &Frame, cached: Option<&mut CachedTile>) -> Result<Tile, Refusal> {
    let worked = row.work(tile, frame, cached)?;
    let mut list: Vec<Entry> = row.listed().map(|listed| Entry { listed, painted: None }).collect();
    if worked.decision == Decision::Paint {
        let mut plane = Plane::new();
        row.paint_shown(&mut plane, |listed, plane, mark| {
            let entry = list.iter_mut().find(|entry| entry.listed.id == listed.id).expect("a shown layer is listed");
            entry.painted = Some((mark, plane.clone()));
        })?;
    }
    let (incoming, carries) = (row.incoming().collect(), row.carries().collect());
    Ok(Tile { tile, decision: worked.decision, list, incoming, carries })
}

/// Drives a job's row.
pub fn drive(job: &Job, segments: &[PixelSegment]) -> Driven {
    drive_row(segments, &job.table(), job.row, job.from..job.to, job.due())
}

/// Opens a row for a range of tiles, and works those that are due.
pub fn drive_row(
    segments: &[PixelSegment],
    table: &LayerTable,
    row: i32,
    tiles: Range<i32>,
    due: Range<i32>,
) -> Driven {
    let mut driven = Driven { opening: None, tiles: Vec::new(), refusal: None };
    let mut row = match Row::open(segments, table, row, tiles) {
        Ok(row) => row,
        Err(refusal) => return Driven { refusal: Some(refusal), ..driven },
    };
    driven.opening = Some(row.carries().collect());
    for tile in due {
        match work(&mut row, tile) {
            Ok(tile) => driven.tiles.push(tile),
            Err(refusal) => return Driven { refusal: Some(refusal), ..driven },
        }
    }
    driven
}

/// What the row program prints for a job text.
pub fn answer(text: &[u8]) -> String {
    let read = Job::read(text).and_then(|job| Ok((job.segments()?, job)));
    let (lines, refusal) = match read {
        Err(refusal) => (Vec::new(), Some(refusal)),
        Ok((segments, job)) => {
            let driven = drive(&job, &segments);
            let lines = driven.tiles.iter().map(Tile::line);
            (std::iter::once(NAMES.to_string()).chain(lines).collect(), driven.refusal)
        }
    };
    let last = refusal.map(|refusal| format!("refused {}", refusal.number()));
    lines.into_iter().chain(last).map(|line| line + "\n").collect()
}
