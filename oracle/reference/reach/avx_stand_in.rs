//! The lanes of a vector of the stand-in.

use super::f32x8;

pub fn lanes(vector: f32x8) -> [f32; 8] {
    unsafe { std::mem::transmute(vector.0) }
}
