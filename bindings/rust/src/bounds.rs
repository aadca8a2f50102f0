//! Covers known within bounds: what a layer may cover before its outlines are final.

use std::ops::RangeInclusive;

use crate::{
    cause::{self, told},
    exports, segment, Cause, Condition, Cover, FillRule, PixelSegment, Refusal,
};

/// The lowest and the highest doubled area that each pixel of one layer in one tile may see, and the least and the
/// greatest weight over all whole numbers between them, by both rules. A weight is 512 times a coverage.
///
/// Whatever covers are chosen within the bounds, each weight lies within its own; where both bounds are equal so are
/// the two weights.
#[derive(Clone, Debug, PartialEq, Eq)]
pub struct Bounded {
    lowest: Box<[i16; 256]>,
    highest: Box<[i16; 256]>,
    /// By NonZero, then by EvenOdd.
    least: [Box<[u16; 256]>; 2],
    greatest: [Box<[u16; 256]>; 2],
}

impl Bounded {
    /// The bounds of a layer without segments and without a cover from the left: zeros.
    #[must_use]
    pub fn new() -> Bounded {
        let weights = || Box::new([0; 256]);
        Bounded {
            lowest: Box::new([0; 256]),
            highest: Box::new([0; 256]),
            least: [weights(), weights()],
            greatest: [weights(), weights()],
        }
    }

    /// Works out what a layer may cover in a tile: of its segments there, whose own covers are not read, a lowest and a
    /// highest cover for each of them, and the same of its cover from the left.
    ///
    /// # Errors
    ///
    /// Refused by 1 (fewer pairs than segments), 3 (a segment of another layer or tile), 14 (a lowest above its
    /// highest, or a segment's outside -32 to 31) and 9 (the covers of a pixel row, by the greater absolute value of
    /// each pair). All numbers are then as they were.
    #[allow(clippy::too_many_arguments)]
    pub fn bound_part(
        &mut self,
        layer_id: u32,
        tile_x: i16,
        tile_y: i16,
        part: &[PixelSegment],
        bounds: &[[i8; 2]],
        low: &Cover,
        high: &Cover,
    ) -> Result<(), Refusal> {
        let Bounded { lowest, highest, least: [least_n, least_e], greatest: [greatest_n, greatest_e] } = self;
        Refusal::judge(exports::bound_part(
            layer_id,
            tile_x,
            tile_y,
            segment::words_of(part),
            bounds.as_flattened(),
            &low.0,
            &high.0,
            lowest.as_mut_slice(),
            highest.as_mut_slice(),
            least_n.as_mut_slice(),
            greatest_n.as_mut_slice(),
            least_e.as_mut_slice(),
            greatest_e.as_mut_slice(),
        ))
        .map_err(|refusal| {
            refusal.found(|condition| match condition {
                Condition::Room => Some(Cause::FewBounds { pairs: told(bounds.len()), segments: told(part.len()) }),
                Condition::Row => cause::part(part.iter().map(|one| one.fields()), layer_id, (tile_x, tile_y)),
                Condition::Bounds => descending(&bounds[..part.len()], low, high),
                Condition::Covers => too_large(layer_id, part, bounds, low, high),
                _ => None,
            })
        })
    }

    /// The doubled areas that a pixel may see.
    ///
    /// # Panics
    ///
    /// Where the column or the row is above 15.
    #[must_use]
    pub fn doubled_areas(&self, column: usize, row: usize) -> RangeInclusive<i16> {
        let place = place(column, row);
        self.lowest[place]..=self.highest[place]
    }

    /// The weights that a pixel may have, 0 to 512.
    ///
    /// # Panics
    ///
    /// Where the column or the row is above 15.
    #[must_use]
    pub fn weights(&self, column: usize, row: usize, rule: FillRule) -> RangeInclusive<u16> {
        let (place, rule) = (place(column, row), rule.code() as usize);
        self.least[rule][place]..=self.greatest[rule][place]
    }
}

/// 14: the first pair of bounds that is none, of the segments and then of the cover from the left.
fn descending(bounds: &[[i8; 2]], low: &Cover, high: &Cover) -> Option<Cause> {
    let of_segment = (0..).zip(bounds).find(|(_, &[low, high])| low > high || low < -32 || high > 31);
    let of_segment = of_segment.map(|(segment, &[low, high])| Cause::SegmentBounds { segment, low, high });
    of_segment.or_else(|| {
        let row = (0..).zip(low.0.into_iter().zip(high.0)).find(|(_, (low, high))| low > high);
        row.map(|(row, (low, high))| Cause::CoverBounds { row, low, high })
    })
}

/// 9: the first pixel row in which the greater absolute values of the bounds sum above 127.
fn too_large(layer: u32, part: &[PixelSegment], bounds: &[[i8; 2]], low: &Cover, high: &Cover) -> Option<Cause> {
    let greater = |low: i8, high: i8| if low.unsigned_abs() > high.unsigned_abs() { low } else { high };
    let carry: Vec<i8> = low.0.into_iter().zip(high.0).map(|(low, high)| greater(low, high)).collect();
    let covers = part.iter().zip(bounds).map(|(one, &[low, high])| (layer, one.local_y(), greater(low, high)));
    cause::covers([(layer, &carry[..])].into_iter(), covers)
}

/// Planes are laid out row by row.
fn place(column: usize, row: usize) -> usize {
    assert!(column < 16 && row < 16, "column {column}, row {row}");
    row * 16 + column
}

impl Default for Bounded {
    fn default() -> Bounded {
        Bounded::new()
    }
}
