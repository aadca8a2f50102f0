//! Colours.

use std::fmt;

use crate::exports;

/// Red, green, blue and alpha. Equal by ==, number by number: NaN equals nothing, and both zeros agree.
#[derive(Clone, Copy, Debug, Default)]
pub struct Color {
    /// Red.
    pub r: f32,
    /// Green.
    pub g: f32,
    /// Blue.
    pub b: f32,
    /// Alpha: 0 shows nothing, 1 hides what is below.
    pub a: f32,
}

impl Color {
    /// A colour that hides what is below it.
    #[must_use]
    pub const fn opaque(r: f32, g: f32, b: f32) -> Color {
        Color { r, g, b, a: 1.0 }
    }

    /// Its numbers, red first.
    #[must_use]
    pub const fn numbers(self) -> [f32; 4] {
        [self.r, self.g, self.b, self.a]
    }
}

impl From<[f32; 4]> for Color {
    fn from([r, g, b, a]: [f32; 4]) -> Color {
        Color { r, g, b, a }
    }
}

impl PartialEq for Color {
    fn eq(&self, other: &Color) -> bool {
        exports::color_eq(&self.numbers(), &other.numbers())
    }
}

impl From<Color> for [f32; 4] {
    fn from(color: Color) -> [f32; 4] {
        color.numbers()
    }
}

/// Its four numbers.
impl fmt::Display for Color {
    fn fmt(&self, f: &mut fmt::Formatter<'_>) -> fmt::Result {
        write!(f, "({}, {}, {}, {})", self.r, self.g, self.b, self.a)
    }
}
