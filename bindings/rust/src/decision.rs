//! What is to be done with a tile.

use std::fmt;

use crate::Color;

/// What is to be done with a tile that was worked.
#[derive(Clone, Copy, Debug, PartialEq)]
pub enum Decision {
    /// Nothing: it shows what the last frame left there.
    None,
    /// It is filled with one colour: `bottom`, with the shown layers mixed above it but the first `before` of them. Of a
    /// batch [`BatchTile::mixed`](crate::BatchTile::mixed) has these layers.
    Solid {
        /// The colour at the bottom.
        bottom: Color,
        /// How many shown layers lie before those to mix, 0 or 1.
        before: usize,
    },
    /// Its shown layers are painted, ascending.
    Paint,
}

impl Decision {
    /// The word that the row program prints.
    #[must_use]
    pub const fn word(&self) -> &'static str {
        match self {
            Decision::None => "none",
            Decision::Solid { .. } => "solid",
            Decision::Paint => "paint",
        }
    }
}

/// The word that the row program prints.
impl fmt::Display for Decision {
    fn fmt(&self, f: &mut fmt::Formatter<'_>) -> fmt::Result {
        f.pad(self.word())
    }
}
