//! Covers, coverages and cached tiles as plain numbers; below it the painter that records (recorder.rs), the row
//! (row.rs) and times (timed.rs).

use super::*;
use crate::{
    cpu::RGBA,
    plain::{color_of, Cached},
    table::Table,
    utils::simd::reach::lanes,
};

pub mod plate;
pub mod recorder;
pub mod row;
pub mod timed;

pub fn is_empty(cover: [i8; 16], rule: FillRule) -> bool {
    cover_of(cover).is_empty(rule)
}

pub fn is_full(cover: [i8; 16], rule: FillRule) -> bool {
    cover_of(cover).is_full(rule)
}

/// One cover added to another, lane by lane.
pub fn add(cover: [i8; 16], other: [i8; 16]) -> [i8; 16] {
    let mut sum = cover_of(other);
    cover_of(cover).add_cover_to(&mut sum.covers);
    bytes_of(sum)
}

/// The coverage of a pixel that sees d, the same in each of the eight lanes.
pub fn coverage(d: i32, rule: FillRule) -> f32 {
    let lanes = lanes(doubled_area_to_coverage(i32x8::splat(d), rule));
    assert!(lanes.iter().all(|lane| lane.to_bits() == lanes[0].to_bits()));
    lanes[0]
}

/// A solid tile through `convert_optimizer_op`: its display bytes, whether they are written, and what the cached tile
/// then is.
pub fn settle(cached: Option<Cached>, color: [f32; 4]) -> ([u8; 4], bool, Option<Cached>) {
    let table = Table::new(&[]);
    let tile = cached.map(tile_of);
    let context = Context {
        tile_x: 0,
        tile_y: 0,
        segments: &[],
        props: &table,
        cached_clear_color: None,
        channels: RGBA,
        cached_tile: tile.as_ref(),
        clear_color: Color::default(),
    };
    let op = ControlFlow::Break(OptimizerTileWriteOp::Solid(color_of(color)));
    let is_written = match CachedTile::convert_optimizer_op(op, &context) {
        ControlFlow::Break(TileWriteOp::Solid(bytes)) => {
            assert_eq!(bytes, to_srgb_bytes(color));
            true
        }
        op => {
            assert_eq!(op, ControlFlow::Break(TileWriteOp::None));
            false
        }
    };
    (to_srgb_bytes(color), is_written, tile.as_ref().map(cached_of))
}

/// A colour as the display has it.
pub fn display_bytes(color: [f32; 4]) -> [u8; 4] {
    to_srgb_bytes(color)
}

pub(crate) fn cover_of(bytes: [i8; 16]) -> Cover {
    let mut cover = Cover::default();
    *cover.as_slice_mut() = bytes;
    cover
}

pub(crate) fn bytes_of(mut cover: Cover) -> [i8; 16] {
    *cover.as_slice_mut()
}

pub fn tile_of(cached: Cached) -> CachedTile {
    let [tag, c0, c1, c2, red, green, blue, alpha] = cached.0;
    CachedTile {
        tags: Cell::new(tag),
        layer_count: Cell::new([c0, c1, c2]),
        solid_color: Cell::new([red, green, blue, alpha]),
    }
}

pub fn cached_of(tile: &CachedTile) -> Cached {
    let [c0, c1, c2] = tile.layer_count.get();
    let [red, green, blue, alpha] = tile.solid_color.get();
    Cached([tile.tags.get(), c0, c1, c2, red, green, blue, alpha])
}
