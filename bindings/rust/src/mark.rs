//! Marks: which octets of a plane a draw uses.

use std::fmt;

use crate::exports;

/// Which octets of a plane a draw uses: bit 2 × column + half, where the half is 0 for the pixel rows 0 to 7 of a
/// column and 1 for 8 to 15.
#[derive(Clone, Copy, Default, PartialEq, Eq, Hash)]
pub struct Mark(pub u32);

impl Mark {
    /// How many octets are used, 0 to 32.
    #[must_use]
    pub fn octets(self) -> u32 {
        exports::octets(self.0)
    }

    /// Whether an octet is used.
    ///
    /// # Panics
    ///
    /// Where the column is above 15 or the half above 1.
    #[must_use]
    pub fn uses(self, column: usize, half: usize) -> bool {
        assert!(column < 16 && half < 2, "column {column}, half {half}");
        self.0 >> (2 * column + half) & 1 == 1
    }
}

/// Its 32 bits, the lowest last.
impl fmt::Debug for Mark {
    fn fmt(&self, f: &mut fmt::Formatter<'_>) -> fmt::Result {
        write!(f, "Mark({:#034b})", self.0)
    }
}

impl fmt::Binary for Mark {
    fn fmt(&self, f: &mut fmt::Formatter<'_>) -> fmt::Result {
        fmt::Binary::fmt(&self.0, f)
    }
}
