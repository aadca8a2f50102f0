//! Tile rows of the forma CPU painter, proved.
//!
//! A figure service draws plates one row of tiles after another. This crate decides what a tile shows and computes its
//! coverages: it takes the place of the coverage stage of forma's CPU painter (google/forma, commit 681e8bfd34), and
//! ends there. Blending is the caller's. Below it is a static library whose every function is proved to meet its
//! contract; the crate adds types and borrows, and no arithmetic.
//!
//! # A row
//!
//! A [`Plate`] has ordered [`PixelSegment`]s; [`Plate::row`] gives those of a row. A [`LayerTable`] says what each
//! layer is. [`Row::open`] borrows both, and [`Row::work_tiles`] works and paints tiles, many in one call, into a
//! [`Batch`]. This loop is what stands in the place of the painter's coverage stage:
//!
//! ```
//! use tile_rows::{
//!     Batch, BatchEnd, Color, Decision, Fields, Frame, Layer, LayerTable, PixelSegment, Refusal, Row, Style,
//! };
//!
//! # fn main() -> Result<(), Refusal> {
//! // One opaque layer: an edge goes up at the left of tile 0, and down in the middle of tile 2.
//! let black = Color { r: 0.0, g: 0.0, b: 0.0, a: 1.0 };
//! let table = LayerTable::new(&[Layer::draw(1, Style::solid(black))]);
//! let edge = |tile_x, local_x, cover| {
//!     (0..16).map(move |local_y| {
//!         let double_area_multiplier = 32;
//!         PixelSegment::new(Fields {
//!             layer_id: 1, tile_x, tile_y: 0, local_x, local_y, double_area_multiplier, cover,
//!         })
//!     })
//! };
//! let segments = edge(0, 0, 16).chain(edge(2, 8, -16)).collect::<Result<Vec<_>, _>>()?;
//!
//! let frame = Frame { clear: Color { r: 1.0, g: 1.0, b: 1.0, a: 1.0 }, previous_clear: None };
//! let mut words = Vec::new();
//! let mut batch = Batch::new(); // one for each thread, used again for row after row
//! let mut row = Row::open(&segments, &table, 0, 0..4)?;
//! loop {
//!     let end = row.work_tiles(64, &frame, None, &mut batch)?;
//!     for tile in batch.tiles() {
//!         words.push(tile.decision.word());
//!         match tile.decision {
//!             Decision::None => {} // the tile stays as the last frame left it
//!             Decision::Solid { bottom, .. } => {
//!                 // Mix the colours of the layers of `tile.mixed()`, in their order, above `bottom`; make the display
//!                 // bytes, and ask `settle` whether they are to be written.
//!                 assert!(tile.mixed().len() == 0 && (tile.tile != 1 || bottom == black));
//!             }
//!             Decision::Paint => for layer in tile.painted() {
//!                 // Blend the layer by its coverages, in the octets that the mark names. A clip has mark 0: its
//!                 // coverages are the mask of the clipped draws that it reaches.
//!                 assert_eq!((layer.id, layer.plane.at(0, 0)), (1, 1.0));
//!                 assert_eq!(layer.mark.octets(), if tile.tile == 0 { 32 } else { 16 });
//!             }
//!         }
//!     }
//!     if end == BatchEnd::RowEnd {
//!         break;
//!     }
//! }
//! assert_eq!(words, ["paint", "solid", "paint", "solid"]);
//! # Ok(())
//! # }
//! ```
//!
//! The planes stay in the batch and are not copied. A tile that is turned down ends the batch before it, so that the
//! loop sees every tile that was worked before `work_tiles` gives the refusal.
//!
//! # Tile by tile
//!
//! To look at a row closely, an inspector works one tile in a call: [`Row::work`], then [`Row::listed`] has each layer
//! of the tile's list, with its cover and whether it is shown, [`Row::carries`] what is handed on, and
//! [`Row::paint_shown`] or [`Row::paint`] paint. A tile can also be listed without a decision: [`Row::list`] fills a
//! [`TileList`], and [`Row::decide`] decides from it, now or later. Batches and single calls may take turns in a row.
//!
//! # From frame to frame
//!
//! Keep a [`CachedTile`] for each tile, lend them to [`Row::work_tiles`] and each solid one to [`settle`], and say in the
//! table which layers are unchanged and in [`Frame`] what the last clear colour was. A tile of which nothing changed is
//! then decided as [`Decision::None`], and a solid one whose bytes are there already is [`Settled::Keep`].
//!
//! That decides as the Rust does, which at times keeps a tile with a wrong picture. A [`TileHistory`] for each tile, in
//! place of the cached tile, remembers what it takes to keep only tiles that would be drawn afresh in the same way. It
//! looks at each tile's list, and so works tile by tile. Only a solid tile is settled:
//!
//! ```
//! use tile_rows::{
//!     Color, Decision, Fields, Layer, LayerTable, PixelSegment, Plane, Refusal, Row, Settled, Style, TileHistory,
//! };
//! # fn mixed(bottom: Color) -> [u8; 4] { bottom.numbers().map(|number| (number * 255.0) as u8) }
//!
//! # fn main() -> Result<(), Refusal> {
//! let (white, red) = (Color::opaque(1.0, 1.0, 1.0), Color::opaque(1.0, 0.0, 0.0));
//! // An edge goes up in the middle of tile 0: its right half is red, and all that follows.
//! let place =
//!     Fields { layer_id: 1, tile_x: 0, tile_y: 0, local_x: 8, local_y: 0, double_area_multiplier: 32, cover: 16 };
//! let edge = (0..16).map(|local_y| PixelSegment::new(Fields { local_y, ..place })).collect::<Result<Vec<_>, _>>()?;
//!
//! let mut tiles = vec![TileHistory::new(); 4];
//! let mut display = [None; 4]; // the bytes that fill each tile; none where it is painted
//! let mut plane = Plane::new();
//! for frame in 0..4 {
//!     // The layer stands in the frames 0 and 1, the second time with the same record and segments; then it is gone.
//!     let segments = if frame < 2 { &edge[..] } else { &[] };
//!     let table = LayerTable::new(&[Layer::draw(1, Style::solid(red)).unchanged(frame == 1)]);
//!     let mut row = Row::open(segments, &table, 0, 0..4)?;
//!     for ((tile, history), shown) in (0..).zip(&mut tiles).zip(&mut display) {
//!         let worked = history.work(&mut row, tile, frame, white)?;
//!         match worked.decision {
//!             Decision::None => {} // the tile stays as it is
//!             Decision::Solid { bottom, .. } => {
//!                 // Mix the colours of the shown layers of `row.listed()` above `bottom`, and make the display bytes.
//!                 let bytes = mixed(bottom);
//!                 if history.settle(bytes)? == Settled::Write {
//!                     *shown = Some(bytes);
//!                 }
//!             }
//!             Decision::Paint => {
//!                 row.paint_shown(&mut plane, |_layer, _plane, _mark| {
//!                     // Blend the layer by its coverages.
//!                 })?;
//!                 *shown = None; // nothing is settled: no bytes fill the tile
//!             }
//!         }
//!         assert_eq!(worked.decision == Decision::None, frame % 2 == 1);
//!     }
//!     let (white, red) = (Some([255; 4]), Some([255, 0, 0, 255]));
//!     assert_eq!(display, if frame < 2 { [None, red, red, red] } else { [white; 4] });
//! }
//! # Ok(())
//! # }
//! ```
//!
//! # While an outline is dragged
//!
//! A [`SegmentSet`] keeps the segments of one layer in one tile with their doubled areas and their carry, and takes
//! segments in and lets them out one at a time.
//!
//! # Before outlines are final
//!
//! [`Bounded::bound_part`] says what a layer may cover in a tile when each cover is known within bounds only.
//!
//! # Tiles four pixels high
//!
//! [`four_high`] has packed segments, covers and coverages of tiles 16 wide and 4 high; a
//! [`LayerRow`](four_high::LayerRow) gives the coverages of one layer, tile after tile.
//!
//! # A whole plate, and threads
//!
//! [`Plate::work`] works all rows of an [`Area`], or those of a crop, in order, and hands each tile with its decision and
//! coverages to a sink; [`Plate::work_on`] does so on several threads. [`Plate::rows`] names the rows that have segments,
//! and [`Plate::open_row`] opens one of them. Rows don't depend on each other: a [`Row`] is `Send` and borrows its table,
//! so that other ways to share them out need `std::thread::scope` and a [`Batch`] for each thread.
//!
//! # Refusals
//!
//! A call that is turned down gives a [`Refusal`], the lowest that applies, and leaves everything as it was: the row
//! can be used on, with the same tile or, after mending what was wrong, another. A refusal tells its [`Cause`], where
//! it is known: which layer the table lacks, which field, record, pixel row or segment is at fault.
//!
//! # What is judged when
//!
//! Every operation of the library judges all that it is lent, so nothing that a caller does makes a call unsound.
//! [`Row::work_tiles`] judges row and table once for a batch: that this suffices, and gives what single calls give, is
//! proved in the library and does not rest on the crate's borrows. The single calls of [`Row`], and
//! [`LayerRow`](four_high::LayerRow), judge the whole row again for each tile and each painted layer, so that the time
//! of a tile grows with the row's segments.
//!
//! # Memory of your own
//!
//! [`exports`] has every exported operation of the library as a safe function over lent slices and numbers. It is made
//! from the library's sources by `cargo run --example declare`, and a test holds it to them.

#![deny(missing_docs, unsafe_code)]
#![warn(clippy::missing_errors_doc, clippy::must_use_candidate)]

mod batch;
mod bounds;
pub mod cached_tile;
mod cause;
mod color;
mod cover;
mod decision;
#[allow(unsafe_code)] // the declarations, and one call of each
pub mod exports;
pub mod four_high;
mod history;
mod list;
mod mark;
pub mod plane;
pub mod plate;
mod refusal;
mod revision;
mod row;
pub mod segment;
mod segment_set;
mod style;
mod table;

pub use crate::{
    batch::{Batch, BatchEnd, BatchTile, PaintedLayer},
    bounds::Bounded,
    cached_tile::{settle, CachedTile, Settled},
    cause::{Cause, Field, RecordFault},
    color::Color,
    cover::Cover,
    decision::Decision,
    history::TileHistory,
    list::{Carry, Listed, TileList},
    mark::Mark,
    plane::Plane,
    plate::{Area, Crop, Plate, RowNumber, RowRefusal},
    refusal::{Condition, Refusal},
    revision::{Revision, Revisions, Sent},
    row::{Frame, Row, Worked},
    segment::{Fields, PixelSegment},
    segment_set::SegmentSet,
    style::{BlendMode, Fill, FillRule, Style},
    table::{Func, Layer, LayerTable},
};
