//! Packed pixel segments: their fields, their order, and the searches of the painter.

use std::{cmp::Ordering, fmt, slice};

use crate::{cause, exports, Refusal};

/// What a segment is packed from.
///
/// The word keeps a tile y of -1 to 2,046, a tile x of -1 to 4,094, a layer id below 2,097,152, local places of 0 to
/// 15, a multiplier of 0 to 63 and a cover of -32 to 31.
#[derive(Clone, Copy, Debug, PartialEq, Eq, Hash)]
pub struct Fields {
    /// The layer that the segment belongs to.
    pub layer_id: u32,
    /// The tile's column; every tile left of the first is -1.
    pub tile_x: i16,
    /// The tile's row.
    pub tile_y: i16,
    /// The pixel's column in its tile.
    pub local_x: u8,
    /// The pixel's row in its tile.
    pub local_y: u8,
    /// What the cover is multiplied by to give the double area.
    pub double_area_multiplier: u8,
    /// How much the outline rises or falls in this pixel, in sixteenths.
    pub cover: i8,
}

/// A packed pixel segment: what an outline of one layer does in one pixel.
///
/// Equality is that of the whole word. The painter's order looks at tile y, tile x and layer alone, so it is the method
/// [`compare`](PixelSegment::compare) and not `Ord`: `segments.sort_by(PixelSegment::compare)`.
#[derive(Clone, Copy, PartialEq, Eq, Hash)]
#[repr(transparent)]
pub struct PixelSegment(u64);

impl PixelSegment {
    /// Packs the fields.
    ///
    /// # Errors
    ///
    /// Refused by 11 (a field outside its range).
    pub fn new(fields: Fields) -> Result<PixelSegment, Refusal> {
        let Fields { layer_id, tile_x, tile_y, local_x, local_y, double_area_multiplier, cover } = fields;
        let mut word = 0;
        let number =
            exports::pack(layer_id, tile_x, tile_y, local_x, local_y, double_area_multiplier, cover, &mut word);
        match Refusal::judge(number) {
            Ok(()) => Ok(PixelSegment(word)),
            Err(refusal) => Err(refusal.found(|_| cause::field(fields, false))),
        }
    }

    /// The segment of a packed word; any word is one.
    #[must_use]
    pub const fn from_word(word: u64) -> PixelSegment {
        PixelSegment(word)
    }

    /// The packed word.
    #[must_use]
    pub const fn word(self) -> u64 {
        self.0
    }

    /// The layer that the segment belongs to.
    #[must_use]
    pub fn layer_id(self) -> u32 {
        exports::layer_id(self.0)
    }

    /// The tile's column, -1 to 4,094.
    #[must_use]
    pub fn tile_x(self) -> i16 {
        exports::tile_x(self.0)
    }

    /// The tile's row, -1 to 2,046.
    #[must_use]
    pub fn tile_y(self) -> i16 {
        exports::tile_y(self.0)
    }

    /// The pixel's column in its tile, 0 to 15.
    #[must_use]
    pub fn local_x(self) -> u8 {
        exports::local_x(self.0)
    }

    /// The pixel's row in its tile, 0 to 15.
    #[must_use]
    pub fn local_y(self) -> u8 {
        exports::local_y(self.0)
    }

    /// The double area's multiplier, 0 to 63.
    #[must_use]
    pub fn double_area_multiplier(self) -> u8 {
        exports::double_area_multiplier(self.0)
    }

    /// Multiplier times cover.
    #[must_use]
    pub fn double_area(self) -> i16 {
        exports::double_area(self.0)
    }

    /// The cover, -32 to 31.
    #[must_use]
    pub fn cover(self) -> i8 {
        exports::cover(self.0)
    }

    /// Every field that it was packed from.
    #[must_use]
    pub fn fields(self) -> Fields {
        Fields {
            layer_id: self.layer_id(),
            tile_x: self.tile_x(),
            tile_y: self.tile_y(),
            local_x: self.local_x(),
            local_y: self.local_y(),
            double_area_multiplier: self.double_area_multiplier(),
            cover: self.cover(),
        }
    }

    /// The painter's order: by tile y, then tile x, then layer. Segments that agree in these are equal by it.
    #[must_use]
    pub fn compare(&self, other: &PixelSegment) -> Ordering {
        match exports::cmp(self.0, other.0) {
            0 => Ordering::Less,
            1 => Ordering::Equal,
            _ => Ordering::Greater,
        }
    }
}

/// Its fields and its word.
impl fmt::Debug for PixelSegment {
    fn fmt(&self, f: &mut fmt::Formatter<'_>) -> fmt::Result {
        let Fields { layer_id, tile_x, tile_y, local_x, local_y, double_area_multiplier, cover } = self.fields();
        f.debug_struct("PixelSegment")
            .field("layer_id", &layer_id)
            .field("tile_x", &tile_x)
            .field("tile_y", &tile_y)
            .field("local_x", &local_x)
            .field("local_y", &local_y)
            .field("double_area_multiplier", &double_area_multiplier)
            .field("cover", &cover)
            .field("word", &format_args!("{:#018x}", self.0))
            .finish()
    }
}

/// The packed word, as 16 digits of base 16.
impl fmt::Display for PixelSegment {
    fn fmt(&self, f: &mut fmt::Formatter<'_>) -> fmt::Result {
        write!(f, "{:016x}", self.0)
    }
}

impl TryFrom<Fields> for PixelSegment {
    type Error = Refusal;

    fn try_from(fields: Fields) -> Result<PixelSegment, Refusal> {
        PixelSegment::new(fields)
    }
}

impl From<PixelSegment> for Fields {
    fn from(segment: PixelSegment) -> Fields {
        segment.fields()
    }
}

/// What the painter searches by.
#[derive(Clone, Copy, Debug, PartialEq, Eq, Hash)]
pub enum Key {
    /// A tile y.
    TileY(i16),
    /// A tile x.
    TileX(i16),
    /// A layer id.
    LayerId(u32),
    /// Whether tile x is at least this one, and which answer is wanted.
    TileXAtLeast(i16, bool),
    /// Whether tile y is 0 or more, and which answer is wanted.
    TileYNotNegative(bool),
}

/// The last place whose key is the wanted one, or where it would stand. On segments that the key does not sort, the
/// halving of the painter decides.
///
/// # Errors
///
/// As `slice::binary_search`: the place where such a segment would stand, where there is none.
pub fn search_last(segments: &[PixelSegment], key: Key) -> Result<usize, usize> {
    let words = words_of(segments);
    let mut place = 0;
    let found = match key {
        Key::TileY(tile_y) => exports::search_last_by_tile_y(words, tile_y, &mut place),
        Key::TileX(tile_x) => exports::search_last_by_tile_x(words, tile_x, &mut place),
        Key::LayerId(layer_id) => exports::search_last_by_layer_id(words, layer_id, &mut place),
        Key::TileXAtLeast(start, wanted) => exports::search_last_by_tile_x_at_least(words, start, wanted, &mut place),
        Key::TileYNotNegative(wanted) => exports::search_last_by_tile_y_not_negative(words, wanted, &mut place),
    };
    if found {
        Ok(place)
    } else {
        Err(place)
    }
}

/// Whether no segment is less than the one before it.
#[must_use]
pub fn does_ascend(segments: &[PixelSegment]) -> bool {
    exports::does_ascend(words_of(segments))
}

/// Whether the segments ascend and each has this tile y: whether they are a row that [`Row::open`](crate::Row::open)
/// takes.
#[must_use]
pub fn is_row(segments: &[PixelSegment], tile_y: i16) -> bool {
    // Tile numbers are stored plus 1; below -1 this is a number that no field holds.
    let stored_tile_y = (i64::from(tile_y) + 1) as u64;
    exports::is_row(words_of(segments), stored_tile_y)
}

/// The packed words of segments, in place.
#[allow(unsafe_code)]
#[must_use]
pub fn words_of(segments: &[PixelSegment]) -> &[u64] {
    // SAFETY: a PixelSegment is a u64 (`repr(transparent)`), so the same memory is as many words for the same borrow.
    unsafe { slice::from_raw_parts(segments.as_ptr().cast(), segments.len()) }
}

/// Packed words as segments, in place; any word is one.
#[allow(unsafe_code)]
#[must_use]
pub fn segments_of(words: &[u64]) -> &[PixelSegment] {
    // SAFETY: as in `words_of`, and every u64 is a PixelSegment.
    unsafe { slice::from_raw_parts(words.as_ptr().cast(), words.len()) }
}
