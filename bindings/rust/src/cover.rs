//! Covers: what the outlines left of a tile leave of a layer, a number for each pixel row.

use crate::{cause, exports, segment, FillRule, PixelSegment, Refusal};

/// How far a layer's outlines rose or fell left of some place, in sixteenths, for each of the 16 pixel rows of a tile
/// row.
#[derive(Clone, Copy, Debug, Default, PartialEq, Eq, Hash)]
pub struct Cover(pub [i8; 16]);

impl Cover {
    /// Whether a tile without segments shows nothing of the layer.
    #[must_use]
    pub fn is_empty(&self, rule: FillRule) -> bool {
        exports::is_empty(&self.0, rule.code())
    }

    /// Whether a tile without segments is wholly covered by the layer.
    #[must_use]
    pub fn is_full(&self, rule: FillRule) -> bool {
        exports::is_full(&self.0, rule.code())
    }

    /// Adds the covers of a layer's segments in a tile.
    ///
    /// # Errors
    ///
    /// Refused by 9 where the absolute values of a pixel row sum above 127; the cover is then as it was.
    pub fn carry(&mut self, part: &[PixelSegment]) -> Result<(), Refusal> {
        Refusal::judge(exports::carry(segment::words_of(part), &mut self.0))
            .map_err(|refusal| refusal.found(|_| cause::part_covers(&self.0, part.iter().map(|one| one.fields()))))
    }
}
