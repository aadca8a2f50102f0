//! What a layer is drawn by: fill rules, fills, blend modes.

use std::fmt;

use crate::{exports, Color};

/// Which windings are inside.
#[derive(Clone, Copy, Debug, Default, PartialEq, Eq, Hash)]
#[repr(u32)]
pub enum FillRule {
    /// Every winding but 0.
    #[default]
    NonZero = 0,
    /// Odd windings.
    EvenOdd = 1,
}

impl FillRule {
    /// Its number in a layer record.
    #[must_use]
    pub const fn code(self) -> u32 {
        self as u32
    }
}

impl TryFrom<u32> for FillRule {
    /// The number, where it is no rule's.
    type Error = u32;

    fn try_from(code: u32) -> Result<FillRule, u32> {
        match code {
            0 => Ok(FillRule::NonZero),
            1 => Ok(FillRule::EvenOdd),
            _ => Err(code),
        }
    }
}

impl fmt::Display for FillRule {
    fn fmt(&self, f: &mut fmt::Formatter<'_>) -> fmt::Result {
        fmt::Debug::fmt(self, f)
    }
}

/// What a draw is filled with. The contents of gradients and textures are the caller's.
#[derive(Clone, Copy, Debug, PartialEq)]
pub enum Fill {
    /// One colour.
    Solid(Color),
    /// A gradient.
    Gradient,
    /// A texture.
    Texture,
}

impl Fill {
    /// Its number in a layer record.
    #[must_use]
    pub const fn code(self) -> u32 {
        match self {
            Fill::Solid(_) => 0,
            Fill::Gradient => 1,
            Fill::Texture => 2,
        }
    }

    /// Its colour, or four zeros where it has none.
    #[must_use]
    pub fn color(self) -> Color {
        match self {
            Fill::Solid(color) => color,
            Fill::Gradient | Fill::Texture => Color::default(),
        }
    }
}

/// How a draw is mixed with what is below it.
#[derive(Clone, Copy, Debug, Default, PartialEq, Eq, Hash)]
#[repr(u32)]
#[allow(missing_docs)] // the names of the field
pub enum BlendMode {
    #[default]
    Over = 0,
    Multiply = 1,
    Screen = 2,
    Overlay = 3,
    Darken = 4,
    Lighten = 5,
    ColorDodge = 6,
    ColorBurn = 7,
    HardLight = 8,
    SoftLight = 9,
    Difference = 10,
    Exclusion = 11,
    Hue = 12,
    Saturation = 13,
    Color = 14,
    Luminosity = 15,
}

impl BlendMode {
    /// Every mode, ascending by its number.
    pub const ALL: [BlendMode; 16] = [
        BlendMode::Over,
        BlendMode::Multiply,
        BlendMode::Screen,
        BlendMode::Overlay,
        BlendMode::Darken,
        BlendMode::Lighten,
        BlendMode::ColorDodge,
        BlendMode::ColorBurn,
        BlendMode::HardLight,
        BlendMode::SoftLight,
        BlendMode::Difference,
        BlendMode::Exclusion,
        BlendMode::Hue,
        BlendMode::Saturation,
        BlendMode::Color,
        BlendMode::Luminosity,
    ];

    /// Its number in a layer record.
    #[must_use]
    pub const fn code(self) -> u32 {
        self as u32
    }

    /// The mode that the library takes a number for.
    #[must_use]
    pub fn from_code(code: u32) -> BlendMode {
        BlendMode::ALL[exports::blend_mode(code) as usize]
    }
}

impl TryFrom<u32> for BlendMode {
    /// The number, where it is no mode's.
    type Error = u32;

    fn try_from(code: u32) -> Result<BlendMode, u32> {
        BlendMode::ALL.get(code as usize).copied().ok_or(code)
    }
}

impl fmt::Display for BlendMode {
    fn fmt(&self, f: &mut fmt::Formatter<'_>) -> fmt::Result {
        fmt::Debug::fmt(self, f)
    }
}

/// How a draw is painted.
#[derive(Clone, Copy, Debug, PartialEq)]
pub struct Style {
    /// Whether it is cut by the latest clip below it.
    pub is_clipped: bool,
    /// What it is filled with.
    pub fill: Fill,
    /// How it is mixed with what is below it.
    pub blend_mode: BlendMode,
}

impl From<Color> for Fill {
    fn from(color: Color) -> Fill {
        Fill::Solid(color)
    }
}

impl Style {
    /// The same draw, cut by the latest clip below it.
    #[must_use]
    pub const fn clipped(self) -> Style {
        Style { is_clipped: true, ..self }
    }

    /// An unclipped draw of one colour over what is below it.
    #[must_use]
    pub const fn solid(color: Color) -> Style {
        Style { is_clipped: false, fill: Fill::Solid(color), blend_mode: BlendMode::Over }
    }

    /// Whether it hides what is below it: a solid fill of alpha 1, mixed by `Over`.
    #[must_use]
    pub fn is_opaque(&self) -> bool {
        exports::is_opaque(self.fill.code(), self.blend_mode.code(), &self.fill.color().numbers())
    }
}
