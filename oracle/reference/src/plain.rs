//! What is plain of the Rust, beside the types of the crate `plain`: rules, modes and colours by their numbers.

pub use ::plain::*;

use crate::styling::{BlendMode, Color, FillRule};

/// The number of a fill rule, and the rule of a number.
pub const RULES: [FillRule; 2] = [FillRule::NonZero, FillRule::EvenOdd];

/// Blend modes by their numbers.
pub const MODES: [BlendMode; 16] = [
    BlendMode::Over,
    BlendMode::Multiply,
    BlendMode::Screen,
    BlendMode::Overlay,
    BlendMode::Darken,
    BlendMode::Lighten,
    BlendMode::ColorDodge,
    BlendMode::ColorBurn,
    BlendMode::HardLight,
    BlendMode::SoftLight,
    BlendMode::Difference,
    BlendMode::Exclusion,
    BlendMode::Hue,
    BlendMode::Saturation,
    BlendMode::Color,
    BlendMode::Luminosity,
];

pub fn color_of([r, g, b, a]: Rgba) -> Color {
    Color { r, g, b, a }
}

/// A colour blended over another, by the Rust's own rule.
pub fn blend(below: Rgba, mode: u32, color: Rgba) -> Rgba {
    MODES[mode as usize].blend(color_of(below), color_of(color)).to_array()
}
