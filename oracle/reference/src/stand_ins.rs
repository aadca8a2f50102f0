//! Small stand-ins for what the built files name and no file of the Rust at hand has.

use std::{hash, ops::Range};

/// Of cpu/renderer.rs, whose other needs are not at hand.
#[derive(Clone, Debug)]
pub struct Rect {
    pub hor: Range<usize>,
    pub vert: Range<usize>,
}

#[derive(Clone, Copy, Debug, PartialEq)]
pub struct AffineTransform {
    pub ux: f32,
    pub uy: f32,
    pub vx: f32,
    pub vy: f32,
    pub tx: f32,
    pub ty: f32,
}

impl Eq for AffineTransform {}

impl hash::Hash for AffineTransform {
    fn hash<H: hash::Hasher>(&self, state: &mut H) {
        for value in [self.ux, self.uy, self.vx, self.vy, self.tx, self.ty] {
            value.to_canon_bits().hash(state);
        }
    }
}

/// Bits that are equal where the numbers are.
pub trait CanonBits {
    fn to_canon_bits(self) -> u32;
}

impl CanonBits for f32 {
    fn to_canon_bits(self) -> u32 {
        if self == 0.0 {
            0
        } else {
            self.to_bits()
        }
    }
}
