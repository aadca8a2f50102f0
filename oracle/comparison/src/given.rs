//! What the library's calls are given and lent, as plain numbers.

use reference::plain::Rgba;

/// The highest layer id.
pub const LAYER_LIMIT: u32 = (1 << 21) - 1;

/// The fields of a packed word, as packing takes them.
#[derive(Clone, Copy, Debug)]
pub struct Fields {
    pub layer_id: u32,
    pub tile_x: i16,
    pub tile_y: i16,
    pub local_x: u8,
    pub local_y: u8,
    pub double_area_multiplier: u8,
    pub cover: i8,
}

impl Fields {
    /// Whether every number lies in its field's range. Outside, packing is refused by 11 (W-203).
    pub fn are_in_range(&self) -> bool {
        self.layer_id <= LAYER_LIMIT
            && (-1..=4094).contains(&self.tile_x)
            && (-1..=2046).contains(&self.tile_y)
            && self.local_x < 16
            && self.local_y < 16
            && self.double_area_multiplier < 64
            && (-32..32).contains(&self.cover)
    }

    /// Every number taken into its field's range.
    pub fn reduced(self) -> Self {
        Self {
            layer_id: self.layer_id % (LAYER_LIMIT + 1),
            tile_x: self.tile_x.rem_euclid(4096) - 1,
            tile_y: self.tile_y.rem_euclid(2048) - 1,
            local_x: self.local_x % 16,
            local_y: self.local_y % 16,
            double_area_multiplier: self.double_area_multiplier % 64,
            cover: self.cover.rem_euclid(64) - 32,
        }
    }
}

/// A key of the painter, with the value that is looked for.
#[derive(Clone, Copy, Debug)]
pub enum Key {
    TileY(i16),
    TileX(i16),
    LayerId(u32),
    TileXAtLeast(i16, bool),
    TileYNotNegative(bool),
    /// At this height the painter has none: only tiles four pixels high have it.
    LayerIdAtLeast(u32, bool),
}

/// A layer table as it is lent: eight words and four floats a record.
#[derive(Clone, Debug)]
pub struct LentTable {
    pub layers: Vec<u32>,
    pub colors: Vec<f32>,
    pub count: usize,
}

/// A lent queue: ids, and 16 bytes of cover for each.
#[derive(Clone, Debug, Eq, PartialEq)]
pub struct Queue {
    pub ids: Vec<u32>,
    pub covers: Vec<i8>,
}

/// Where a caller stands in a row: tile y, from, to, the next tile, whether the painter has a clip and its last layer;
/// how many carries are left and how many were taken in.
#[derive(Clone, Copy, Debug, Eq, PartialEq)]
pub struct State {
    pub words: [u32; 6],
    pub counts: [usize; 2],
}

/// What tile work reads.
#[derive(Clone, Debug)]
pub struct Work {
    pub tile: i32,
    pub row: Vec<u64>,
    pub table: LentTable,
    pub is_kept: bool,
    pub clear: Rgba,
    pub previous: Option<Rgba>,
    pub queue: Queue,
}

/// All that tile work may write: what it is told by, the queue handed on, the list's four columns. `told` is the
/// decision, of a solid tile how many shown layers lie before those to mix, how many layers are listed, how many are
/// skipped.
#[derive(Clone, Debug, Eq, PartialEq)]
pub struct Memory {
    pub state: State,
    pub kept: [u8; 8],
    pub next: Queue,
    pub list: Queue,
    /// At place i whether entry i has segments, at place 256 + i whether its layer is changed.
    pub flags: Vec<bool>,
    pub shown: Vec<bool>,
    pub told: [usize; 4],
    /// The bits of the bottom colour.
    pub bottom: [u32; 4],
}

/// What painting may write.
#[derive(Clone, Debug)]
pub struct Canvas {
    pub state: State,
    pub plane: Vec<f32>,
    pub mark: u32,
}

impl PartialEq for Canvas {
    fn eq(&self, other: &Self) -> bool {
        let bits = |plane: &[f32]| plane.iter().map(|number| number.to_bits()).collect::<Vec<_>>();
        (self.state, self.mark, bits(&self.plane)) == (other.state, other.mark, bits(&other.plane))
    }
}
