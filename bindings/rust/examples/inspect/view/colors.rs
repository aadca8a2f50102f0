//! Colours and patterns that tell layers apart. Each colour has a contrast of at least 4.5 to 1 on white; from the ninth
//! layer on a pattern of the swatch tells it apart, and a layer's number or name stands beside it everywhere.

const COLORS: [[u8; 3]; 8] = [
    [0x00, 0x5f, 0x9e],
    [0xb3, 0x4a, 0x00],
    [0x00, 0x70, 0x54],
    [0xa1, 0x3d, 0x7d],
    [0x7a, 0x5c, 0x00],
    [0x6a, 0x48, 0xb8],
    [0x44, 0x44, 0x44],
    [0xb0, 0x1f, 0x2e],
];

/// How many patterns the style sheet has.
const PATTERNS: usize = 8;

/// The colour of the layer that stands at a place of the table.
pub fn at(place: usize) -> [u8; 3] {
    COLORS[place % COLORS.len()]
}

/// The class of its pattern.
pub fn pattern(place: usize) -> usize {
    place / COLORS.len() % PATTERNS
}

pub fn hex([r, g, b]: [u8; 3]) -> String {
    format!("#{r:02x}{g:02x}{b:02x}")
}
