//! Tiles four pixels high: the layout that the Rust names for the GPU. Packed segments, their order and searches, covers
//! and coverages, and one layer's row of tiles; octets, clips and decisions are not part of it.
//!
//! ```
//! use tile_rows::{four_high::{self, PixelSegment}, Fields, FillRule};
//!
//! # fn main() -> Result<(), tile_rows::Refusal> {
//! let fields =
//!     Fields { layer_id: 5, tile_x: 2, tile_y: 8_190, local_x: 8, local_y: 3, double_area_multiplier: 32, cover: 16 };
//! let segment = PixelSegment::new(fields)?;
//! let mut cover = four_high::Cover::default();
//! let mut plane = four_high::Plane::new();
//! plane.paint_part(&[segment], &cover, FillRule::NonZero)?;
//! assert_eq!((plane.at(7, 3), plane.at(8, 3), plane.at(8, 2)), (0.0, 1.0, 0.0));
//! cover.carry(&[segment])?;
//! assert_eq!(cover.0, [0, 0, 0, 16]);
//! # Ok(())
//! # }
//! ```
//!
//! A layer's row, tile after tile:
//!
//! ```
//! use tile_rows::{four_high::{LayerRow, PixelSegment, Plane}, FillRule};
//!
//! # fn main() -> Result<(), tile_rows::Refusal> {
//! // Layer 1 of row 0: covers of 16, -5 and -16, in tiles -1, 0 and 2 and pixel rows 0, 2 and 0.
//! let segments = [0x0008000000040810, 0x000800800005223B, 0x0008018000044830].map(PixelSegment::from_word);
//! let mut row = LayerRow::open(&segments, 0, 0..4, 1, FillRule::NonZero)?;
//! let mut plane = Plane::new();
//! let mut carries = vec![row.cover().0];
//! while let Some(tile) = row.work_next(&mut plane)? {
//!     assert_eq!(plane.at(15, 0), if tile < 2 { 1.0 } else { 0.0 });
//!     carries.push(row.cover().0);
//! }
//! assert_eq!(carries, [[16, 0, 0, 0], [16, 0, -5, 0], [16, 0, -5, 0], [0, 0, -5, 0], [0, 0, -5, 0]]);
//! # Ok(())
//! # }
//! ```

use std::{array, cmp::Ordering, fmt, ops::Range, slice};

use crate::{cause, exports, Cause, Condition, Fields, FillRule, RecordFault, Refusal};

/// A packed pixel segment of a tile four pixels high: tile y -1 to 8,190, local y 0 to 3, and all else as in
/// [`Fields`].
///
/// Equality is that of the whole word; the order is the method [`compare`](PixelSegment::compare).
#[derive(Clone, Copy, PartialEq, Eq, Hash)]
#[repr(transparent)]
pub struct PixelSegment(u64);

impl PixelSegment {
    /// Packs the fields.
    ///
    /// # Errors
    ///
    /// Refused by 11 (a field outside its range).
    pub fn new(fields: Fields) -> Result<PixelSegment, Refusal> {
        let Fields { layer_id, tile_x, tile_y, local_x, local_y, double_area_multiplier, cover } = fields;
        let mut word = 0;
        let number =
            exports::gpu_pack(layer_id, tile_x, tile_y, local_x, local_y, double_area_multiplier, cover, &mut word);
        match Refusal::judge(number) {
            Ok(()) => Ok(PixelSegment(word)),
            Err(refusal) => Err(refusal.found(|_| cause::field(fields, true))),
        }
    }

    /// The segment of a packed word; any word is one.
    #[must_use]
    pub const fn from_word(word: u64) -> PixelSegment {
        PixelSegment(word)
    }

    /// The packed word.
    #[must_use]
    pub const fn word(self) -> u64 {
        self.0
    }

    /// The layer that the segment belongs to.
    #[must_use]
    pub fn layer_id(self) -> u32 {
        exports::gpu_layer_id(self.0)
    }

    /// The tile's column, -1 to 4,094.
    #[must_use]
    pub fn tile_x(self) -> i16 {
        exports::gpu_tile_x(self.0)
    }

    /// The tile's row, -1 to 8,190.
    #[must_use]
    pub fn tile_y(self) -> i16 {
        exports::gpu_tile_y(self.0)
    }

    /// The pixel's column in its tile, 0 to 15.
    #[must_use]
    pub fn local_x(self) -> u8 {
        exports::gpu_local_x(self.0)
    }

    /// The pixel's row in its tile, 0 to 3.
    #[must_use]
    pub fn local_y(self) -> u8 {
        exports::gpu_local_y(self.0)
    }

    /// The double area's multiplier, 0 to 63.
    #[must_use]
    pub fn double_area_multiplier(self) -> u8 {
        exports::gpu_double_area_multiplier(self.0)
    }

    /// Multiplier times cover.
    #[must_use]
    pub fn double_area(self) -> i16 {
        exports::gpu_double_area(self.0)
    }

    /// The cover, -32 to 31.
    #[must_use]
    pub fn cover(self) -> i8 {
        exports::gpu_cover(self.0)
    }

    /// Every field that it was packed from, read in one call.
    #[must_use]
    pub fn fields(self) -> Fields {
        let (mut layer_id, mut tile_x, mut tile_y, mut local_x, mut local_y) = (0, 0, 0, 0, 0);
        let (mut double_area_multiplier, mut double_area, mut cover) = (0, 0, 0);
        exports::gpu_fields(
            self.0,
            &mut layer_id,
            &mut tile_x,
            &mut tile_y,
            &mut local_x,
            &mut local_y,
            &mut double_area_multiplier,
            &mut double_area,
            &mut cover,
        );
        Fields { layer_id, tile_x, tile_y, local_x, local_y, double_area_multiplier, cover }
    }

    /// The order: by tile y, then tile x, then layer.
    #[must_use]
    pub fn compare(&self, other: &PixelSegment) -> Ordering {
        match exports::gpu_cmp(self.0, other.0) {
            0 => Ordering::Less,
            1 => Ordering::Equal,
            _ => Ordering::Greater,
        }
    }
}

/// Its fields and its word.
impl fmt::Debug for PixelSegment {
    fn fmt(&self, f: &mut fmt::Formatter<'_>) -> fmt::Result {
        f.debug_tuple("PixelSegment").field(&self.fields()).field(&format_args!("{:#018x}", self.0)).finish()
    }
}

impl TryFrom<Fields> for PixelSegment {
    type Error = Refusal;

    fn try_from(fields: Fields) -> Result<PixelSegment, Refusal> {
        PixelSegment::new(fields)
    }
}

/// What is searched by.
#[derive(Clone, Copy, Debug, PartialEq, Eq, Hash)]
pub enum Key {
    /// A tile y.
    TileY(i16),
    /// A tile x.
    TileX(i16),
    /// A layer id.
    LayerId(u32),
    /// Whether tile x is at least this one, and which answer is wanted.
    TileXAtLeast(i16, bool),
    /// Whether the layer id is at least this one, and which answer is wanted.
    LayerIdAtLeast(u32, bool),
    /// Whether tile y is 0 or more, and which answer is wanted.
    TileYNotNegative(bool),
}

/// The last place whose key is the wanted one, or where it would stand. On segments that the key does not sort, the
/// halving of the painter decides.
///
/// # Errors
///
/// As `slice::binary_search`: the place where such a segment would stand, where there is none.
pub fn search_last(segments: &[PixelSegment], key: Key) -> Result<usize, usize> {
    let words = words_of(segments);
    let mut place = 0;
    let found = match key {
        Key::TileY(tile_y) => exports::gpu_search_last_by_tile_y(words, tile_y, &mut place),
        Key::TileX(tile_x) => exports::gpu_search_last_by_tile_x(words, tile_x, &mut place),
        Key::LayerId(layer_id) => exports::gpu_search_last_by_layer_id(words, layer_id, &mut place),
        Key::TileXAtLeast(start, wanted) => {
            exports::gpu_search_last_by_tile_x_at_least(words, start, wanted, &mut place)
        }
        Key::LayerIdAtLeast(start, wanted) => {
            exports::gpu_search_last_by_layer_id_at_least(words, start, wanted, &mut place)
        }
        Key::TileYNotNegative(wanted) => exports::gpu_search_last_by_tile_y_not_negative(words, wanted, &mut place),
    };
    if found {
        Ok(place)
    } else {
        Err(place)
    }
}

/// A cover of four pixel rows.
#[derive(Clone, Copy, Debug, Default, PartialEq, Eq, Hash)]
pub struct Cover(pub [i8; 4]);

impl Cover {
    /// Adds the covers of a layer's segments in a tile.
    ///
    /// # Errors
    ///
    /// Refused by 9 where the absolute values of a pixel row sum above 127; the cover is then as it was.
    pub fn carry(&mut self, part: &[PixelSegment]) -> Result<(), Refusal> {
        Refusal::judge(exports::gpu_carry(words_of(part), &mut self.0))
            .map_err(|refusal| refusal.found(|_| cause::part_covers(&self.0, part.iter().map(|one| one.fields()))))
    }

    /// Whether it leaves all to its right outside: NonZero, all zero; EvenOdd, all multiples of 32.
    #[must_use]
    pub fn is_empty(&self, rule: FillRule) -> bool {
        exports::gpu_is_empty(&self.0, rule.code())
    }

    /// Whether it covers all to its right: NonZero, each 16 or more either way; EvenOdd, each an odd multiple of 16.
    #[must_use]
    pub fn is_full(&self, rule: FillRule) -> bool {
        exports::gpu_is_full(&self.0, rule.code())
    }
}

/// The coverage of each pixel of a tile 16 wide and 4 high, 0 to 1.
#[derive(Clone, Debug, PartialEq)]
#[repr(transparent)]
pub struct Plane([f32; 64]);

impl Plane {
    /// A plane of zeros.
    #[must_use]
    pub const fn new() -> Plane {
        Plane([0.0; 64])
    }

    /// The coverage of a pixel.
    ///
    /// # Panics
    ///
    /// Where the column is above 15 or the row above 3.
    #[must_use]
    pub fn at(&self, column: usize, row: usize) -> f32 {
        assert!(column < 16 && row < 4, "column {column}, row {row}");
        self.0[row * 16 + column]
    }

    /// The 4 rows from the top down, each from left to right.
    pub fn rows(&self) -> impl Iterator<Item = [f32; 16]> + '_ {
        (0..4).map(|row| array::from_fn(|column| self.at(column, row)))
    }

    /// The coverages of a layer alone: of its segments in a tile and its cover from the left.
    ///
    /// # Errors
    ///
    /// Refused by 9 (the covers of a pixel row); the plane is then as it was.
    pub fn paint_part(&mut self, part: &[PixelSegment], cover: &Cover, rule: FillRule) -> Result<(), Refusal> {
        Refusal::judge(exports::gpu_paint_part(words_of(part), &cover.0, rule.code(), &mut self.0))
            .map_err(|refusal| refusal.found(|_| cause::part_covers(&cover.0, part.iter().map(|one| one.fields()))))
    }
}

impl Default for Plane {
    fn default() -> Plane {
        Plane::new()
    }
}

/// Why a range of tiles ended ([`LayerRow::work_tiles`]).
#[derive(Clone, Copy, Debug, PartialEq, Eq)]
pub enum RangeEnd {
    /// Every tile that was asked for is worked.
    Asked,
    /// The row has no further tile.
    RowEnd,
    /// No plane is left for a further tile.
    NoRoom,
    /// The next tile would be turned down.
    Refused(Refusal),
}

/// What a range of tiles gave: how many were worked, and why it ended.
#[derive(Clone, Copy, Debug, PartialEq, Eq)]
pub struct TilesWorked {
    /// How many tiles were worked: of as many planes, from the first on, the coverages are written.
    pub worked: usize,
    /// Why the range ended.
    pub ended: RangeEnd,
}

/// One layer's open row: it borrows the row's segments for its life, those of other layers too, and owns the layer's
/// cover, so nothing that it was opened with can change between two calls.
///
/// Tile after tile, [`work_next`](LayerRow::work_next), or [`work`](LayerRow::work) with the tile's number; or many tiles
/// in one call, [`work_tiles`](LayerRow::work_tiles), which judges the row once. A call that is turned down leaves the
/// row and the planes as they were.
///
/// A layer that the row lacks is worked as zeros.
#[derive(Clone, Debug, PartialEq, Eq)]
pub struct LayerRow<'a> {
    segments: &'a [PixelSegment],
    /// As the library keeps it: tile y, from, to, the next tile, the layer and its fill rule.
    words: [u32; 6],
    cover: Cover,
}

impl<'a> LayerRow<'a> {
    /// Opens row `tile_y` for a layer and the tiles of a range, with the sum of the layer's covers left of the first.
    ///
    /// # Errors
    ///
    /// Refused by 2 (a row number that is not 0 to 8,190, or a range that is not within 0 to 4,095), 3 (the segments
    /// are no row), 4 (a layer above 2,097,151) and 9 (the layer's covers left of the first tile).
    pub fn open(
        segments: &'a [PixelSegment],
        tile_y: i32,
        tiles: Range<i32>,
        layer_id: u32,
        rule: FillRule,
    ) -> Result<LayerRow<'a>, Refusal> {
        let mut row = LayerRow { segments, words: [0; 6], cover: Cover::default() };
        Refusal::judge(exports::gpu_open_layer_row(
            tile_y,
            tiles.start,
            tiles.end,
            layer_id,
            rule.code(),
            words_of(segments),
            &mut row.words,
            &mut row.cover.0,
        ))
        .map_err(|refusal| {
            let own = |one: &Fields| one.layer_id == layer_id && i32::from(one.tile_x) < tiles.start;
            let fields = || segments.iter().map(|one| one.fields());
            refusal.found(|condition| match condition {
                Condition::Tile => Some(cause::ends(tile_y, tiles.start, tiles.end, 8_190)),
                Condition::Row => cause::row(fields(), tile_y),
                Condition::Table => Some(Cause::Record { record: 0, layer: layer_id, fault: RecordFault::Id }),
                Condition::Covers => {
                    cause::covers([].into_iter(), fields().filter(own).map(|one| (layer_id, one.local_y, one.cover)))
                }
                _ => None,
            })
        })?;
        Ok(row)
    }

    /// The row's segments.
    #[must_use]
    pub fn segments(&self) -> &'a [PixelSegment] {
        self.segments
    }

    /// The layer.
    #[must_use]
    pub fn layer_id(&self) -> u32 {
        self.words[4]
    }

    /// The tiles that the row was opened for.
    #[must_use]
    pub fn tiles(&self) -> Range<i32> {
        // An opened range is within 0 to 4,095.
        self.words[1] as i32..self.words[2] as i32
    }

    /// The tile that is worked next; the end of [`tiles`](LayerRow::tiles) after the last.
    #[must_use]
    pub fn next_tile(&self) -> i32 {
        self.words[3] as i32
    }

    /// The layer's cover that the next tile takes in: before the first tile the sum of its covers to the left, then
    /// what the tile just worked handed on, as zeros where that is empty by the fill rule.
    #[must_use]
    pub fn cover(&self) -> Cover {
        self.cover
    }

    /// Works a tile: the layer's coverages into the plane, and its cover handed on to the next.
    ///
    /// # Errors
    ///
    /// Refused by 2 (not the next tile, or past the last) and 9 (the covers of a pixel row).
    pub fn work(&mut self, tile: i32, plane: &mut Plane) -> Result<(), Refusal> {
        // The operation judges the row again. That it passes is known here: the borrow keeps it as it was opened.
        Refusal::judge(exports::gpu_work_tile(
            &mut self.words,
            &mut self.cover.0,
            tile,
            words_of(self.segments),
            &mut plane.0,
        ))
        .map_err(|refusal| self.refused(refusal, tile))
    }

    /// Why the work of this tile was turned down.
    fn refused(&self, refusal: Refusal, tile: i32) -> Refusal {
        let own = |one: &Fields| one.layer_id == self.layer_id() && i32::from(one.tile_x) == tile;
        let part = || self.segments.iter().map(|one| one.fields()).filter(own);
        refusal.found(|condition| match condition {
            Condition::Tile => Some(cause::next(tile, self.next_tile(), self.tiles().end)),
            Condition::Covers => cause::covers(
                [(self.layer_id(), &self.cover.0[..])].into_iter(),
                part().map(|one| (one.layer_id, one.local_y, one.cover)),
            ),
            _ => None,
        })
    }

    /// Works the next tile and gives its number; after the last it gives none and leaves the plane.
    ///
    /// # Errors
    ///
    /// Refused by 9 (the covers of a pixel row).
    pub fn work_next(&mut self, plane: &mut Plane) -> Result<Option<i32>, Refusal> {
        let tile = self.next_tile();
        if self.tiles().contains(&tile) {
            self.work(tile, plane).map(|()| Some(tile))
        } else {
            Ok(None)
        }
    }

    /// Works the next tiles, one into each plane, while the row has them and none is turned down.
    ///
    /// # Errors
    ///
    /// Refused by 2 (past the last tile) and 9 (the covers of a pixel row) where the first tile is; a later tile that
    /// would be refused ends the range. Without a plane no tile is asked for, and none is worked.
    pub fn work_tiles(&mut self, planes: &mut [Plane]) -> Result<TilesWorked, Refusal> {
        let (tile, tiles) = (self.next_tile(), planes.len());
        let mut done = [0; 3];
        Refusal::judge(exports::gpu_work_tiles(
            &mut self.words,
            &mut self.cover.0,
            tile,
            tiles,
            words_of(self.segments),
            numbers_of(planes),
            &mut done,
        ))
        .map_err(|refusal| self.refused(refusal, tile))?;
        let [worked, end, number] = done;
        let ended = match end {
            0 => RangeEnd::Asked,
            1 => RangeEnd::RowEnd,
            2 => RangeEnd::NoRoom,
            // A refusal's number is above 0 and below 16.
            _ => match Refusal::judge(number as u32) {
                Err(refusal) => RangeEnd::Refused(self.refused(refusal, self.next_tile())),
                Ok(()) => RangeEnd::Asked,
            },
        };
        Ok(TilesWorked { worked, ended })
    }
}

/// The numbers of planes, in place, plane after plane.
#[allow(unsafe_code)]
fn numbers_of(planes: &mut [Plane]) -> &mut [f32] {
    // SAFETY: a Plane is 64 f32 (`repr(transparent)`), so the same memory is 64 numbers a plane for the same borrow.
    unsafe { slice::from_raw_parts_mut(planes.as_mut_ptr().cast(), planes.len() * 64) }
}

/// The packed words of segments, in place.
#[allow(unsafe_code)]
#[must_use]
pub fn words_of(segments: &[PixelSegment]) -> &[u64] {
    // SAFETY: a PixelSegment is a u64 (`repr(transparent)`), so the same memory is as many words for the same borrow.
    unsafe { slice::from_raw_parts(segments.as_ptr().cast(), segments.len()) }
}
