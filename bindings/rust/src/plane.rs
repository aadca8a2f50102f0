//! Planes: the coverages of a tile's 256 pixels.

use std::{array, fmt, slice};

use crate::{cause, exports, segment, Cover, FillRule, Mark, PixelSegment, Refusal};

/// The coverage of each pixel of a tile, 0 to 1.
///
/// A pixel is named by its column and row; in which order the 256 numbers lie is the library's affair.
#[derive(Clone, PartialEq)]
#[repr(transparent)]
pub struct Plane([f32; 256]);

/// Where a pixel lies in the numbers of a plane. Nothing else in this crate knows the order.
const fn place(column: usize, row: usize) -> usize {
    row * 16 + column
}

impl Plane {
    /// A plane of zeros.
    #[must_use]
    pub const fn new() -> Plane {
        Plane([0.0; 256])
    }

    /// The coverage of a pixel.
    ///
    /// # Panics
    ///
    /// Where the column or the row is above 15.
    #[must_use]
    pub fn at(&self, column: usize, row: usize) -> f32 {
        assert!(column < 16 && row < 16, "column {column}, row {row}");
        self.0[place(column, row)]
    }

    /// The 16 rows from the top down, each from left to right.
    pub fn rows(&self) -> impl Iterator<Item = [f32; 16]> + '_ {
        (0..16).map(|row| array::from_fn(|column| self.at(column, row)))
    }

    /// The 16 columns from left to right, each from the top down.
    pub fn columns(&self) -> impl Iterator<Item = [f32; 16]> + '_ {
        (0..16).map(|column| array::from_fn(|row| self.at(column, row)))
    }

    /// The numbers as the library lays them out.
    #[must_use]
    pub fn as_numbers(&self) -> &[f32; 256] {
        &self.0
    }

    /// The numbers as the library lays them out, to be lent to a plain operation.
    pub fn as_numbers_mut(&mut self) -> &mut [f32; 256] {
        &mut self.0
    }

    /// The coverages of a layer alone: of its segments in a tile and its cover from the left. Gives their mark.
    ///
    /// # Errors
    ///
    /// Refused by 9 (the covers of a pixel row); the plane is then as it was.
    pub fn paint_part(&mut self, part: &[PixelSegment], cover: &Cover, rule: FillRule) -> Result<Mark, Refusal> {
        let mut mark = 0;
        let number = exports::paint_part(segment::words_of(part), &cover.0, rule.code(), &mut self.0, &mut mark);
        Refusal::judge(number)
            .map(|()| Mark(mark))
            .map_err(|refusal| refusal.found(|_| cause::part_covers(&cover.0, part.iter().map(|one| one.fields()))))
    }

    /// The octets with a coverage above 0.
    #[must_use]
    pub fn mark(&self) -> Mark {
        let mut mark = 0;
        let number = exports::mark_plane(&self.0, &mut mark);
        debug_assert_eq!(number, 0, "a plane of 256 numbers is long enough");
        Mark(mark)
    }
}

/// Row by row.
impl fmt::Debug for Plane {
    fn fmt(&self, f: &mut fmt::Formatter<'_>) -> fmt::Result {
        f.write_str("Plane")?;
        f.debug_list().entries(self.rows()).finish()
    }
}

impl Default for Plane {
    fn default() -> Plane {
        Plane::new()
    }
}

/// The numbers of planes, in place, to be lent.
#[allow(unsafe_code)]
pub(crate) fn numbers_of(planes: &mut [Plane]) -> &mut [f32] {
    // SAFETY: a Plane is an array of 256 numbers (`repr(transparent)`) of which each value is one, so the same memory
    // is as many arrays for the same borrow.
    let arrays: &mut [[f32; 256]] = unsafe { slice::from_raw_parts_mut(planes.as_mut_ptr().cast(), planes.len()) };
    arrays.as_flattened_mut()
}

/// The coverage of a pixel that sees the doubled area `d`: its weight divided by 512.
#[must_use]
pub fn doubled_area_to_coverage(d: i16, rule: FillRule) -> f32 {
    exports::doubled_area_to_coverage(d, rule.code())
}
