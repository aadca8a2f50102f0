//! Cached tiles: what the last frame left of a tile.

use std::{fmt, slice};

use crate::{exports, Cause, Refusal};

/// What the last frame left of a tile: how many layers it listed, and the colour that it was filled with.
///
/// Eight bytes: a tag (1 the colour is kept, 2 the count is kept), the count's three, lowest first, and the colour's
/// four.
#[derive(Clone, Copy, Default, PartialEq, Eq, Hash)]
#[repr(transparent)]
pub struct CachedTile(pub [u8; 8]);

/// What is to be done with the display bytes of a solid tile.
#[derive(Clone, Copy, Debug, PartialEq, Eq, Hash)]
pub enum Settled {
    /// They are to be written.
    Write,
    /// The tile shows them already.
    Keep,
}

impl CachedTile {
    /// How many layers were listed, where that is kept.
    #[must_use]
    pub fn layer_count(&self) -> Option<u32> {
        let mut count = 0;
        exports::layer_count(&self.0, &mut count).then_some(count)
    }

    /// The colour that the tile was filled with, where that is kept.
    #[must_use]
    pub fn solid_color(&self) -> Option<[u8; 4]> {
        let mut color = [0; 4];
        exports::solid_color(&self.0, &mut color).then_some(color)
    }

    /// Keeps the low 24 bits of a count, or none. Gives what was kept before.
    pub fn update_layer_count(&mut self, count: Option<u32>) -> Option<u32> {
        let mut previous = 0;
        exports::update_layer_count(&mut self.0, count.is_some(), count.unwrap_or(0), &mut previous).then_some(previous)
    }

    /// Keeps a colour, or none. Gives what was kept before.
    pub fn update_solid_color(&mut self, color: Option<[u8; 4]>) -> Option<[u8; 4]> {
        let mut previous = [0; 4];
        let given = color.is_some();
        let color = color.unwrap_or([0; 4]);
        exports::update_solid_color(&mut self.0, given, &color, &mut previous).then_some(previous)
    }
}

/// What is kept, and the bytes.
impl fmt::Debug for CachedTile {
    fn fmt(&self, f: &mut fmt::Formatter<'_>) -> fmt::Result {
        let (count, color) = (self.layer_count(), self.solid_color());
        let mut told = f.debug_struct("CachedTile");
        told.field("layer_count", &count).field("solid_color", &color).field("bytes", &self.0).finish()
    }
}

/// The bytes of cached tiles, in place, to be lent.
#[allow(unsafe_code)]
pub(crate) fn bytes_of(tiles: &mut [CachedTile]) -> &mut [u8] {
    // SAFETY: a CachedTile is an array of eight bytes (`repr(transparent)`) of which each value is one, so the same
    // memory is as many arrays for the same borrow.
    let arrays: &mut [[u8; 8]] = unsafe { slice::from_raw_parts_mut(tiles.as_mut_ptr().cast(), tiles.len()) };
    arrays.as_flattened_mut()
}

/// Settles a solid tile with its four display bytes. A cached tile keeps them; without one they are always to be
/// written.
///
/// Only a tile that was decided as [`Solid`](crate::Decision::Solid) is settled: a painted one is filled with no bytes,
/// and counts as filled with them afterwards.
///
/// # Errors
///
/// Refused by 6 where the tag is above 3.
pub fn settle(cached: Option<&mut CachedTile>, color: [u8; 4]) -> Result<Settled, Refusal> {
    let mut none = CachedTile::default();
    let given = cached.is_some();
    let tile = cached.unwrap_or(&mut none);
    let mut is_written = false;
    Refusal::judge(exports::settle(given, &mut tile.0, &color, &mut is_written))
        .map_err(|refusal| refusal.found(|_| Some(Cause::Tag { tag: tile.0[0] })))?;
    Ok(if is_written { Settled::Write } else { Settled::Keep })
}
