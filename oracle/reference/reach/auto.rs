//! The lanes of a vector, and the comparison of the second model.

use super::{f32x8, i8x16, m8x16};

pub fn lanes(vector: f32x8) -> [f32; 8] {
    vector.0
}

impl i8x16 {
    /// In place of `eq`, in the crate `double_windings` alone.
    #[allow(dead_code)]
    pub fn at_least(self, least: i8) -> m8x16 {
        m8x16(self.0.map(|lane| if lane >= least { u8::MAX } else { 0 }))
    }
}
