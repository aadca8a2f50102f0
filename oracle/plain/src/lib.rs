//! Rows, layers and answers as plain numbers, in the terms of the lent memory of the other side: the same types for the
//! Rust and for the second model.

/// Red, green, blue, alpha.
pub type Rgba = [f32; 4];

/// A record of the layer table, laid out as C has it: shared libraries are lent arrays of them.
#[derive(Clone, Copy, Debug)]
#[repr(C)]
pub struct Record {
    pub id: u32,
    pub rule: u32,
    pub func: u32,
    pub span: u32,
    pub clipped: u32,
    pub fill: u32,
    pub mode: u32,
    pub unchanged: u32,
    pub color: Rgba,
}

/// Tag, three count bytes, four colour bytes.
#[derive(Clone, Copy, Debug, Default, Eq, PartialEq)]
pub struct Cached(pub [u8; 8]);

#[derive(Clone, Copy, Debug, Eq, PartialEq)]
pub struct Carry {
    pub id: u32,
    pub cover: [i8; 16],
}

/// A listed layer: its incoming cover, zeros where it has none.
#[derive(Clone, Copy, Debug, Eq, PartialEq)]
pub struct Entry {
    pub id: u32,
    pub cover: [i8; 16],
    pub has_segments: bool,
    pub changed: bool,
    /// Not masked off.
    pub shown: bool,
}

#[derive(Clone, Copy, Debug)]
pub enum Decision {
    None,
    /// The bottom colour, how many shown layers lie before those to mix above it, and what the mixing gives.
    Solid {
        bottom: Rgba,
        before: usize,
        mixed: Rgba,
    },
    Paint,
}

/// A layer painted: its coverages and its octets.
#[derive(Clone, Debug)]
pub struct Painted {
    pub id: u32,
    pub plane: [f32; 256],
    pub mark: u32,
    /// The last layer of the painter's clip, afterwards.
    pub clip: Option<u32>,
    /// Whether it is painted as one that needs a clip.
    pub needs_clip: bool,
}

#[derive(Clone, Debug)]
pub struct Worked {
    pub list: Vec<Entry>,
    pub skipped: usize,
    pub decision: Decision,
    /// Of a solid tile: the display bytes, and whether they are written.
    pub settled: Option<([u8; 4], bool)>,
    /// The cached tile before a solid one is settled, and afterwards.
    pub cached: Option<(Cached, Cached)>,
    pub queue: Vec<Carry>,
    /// The layers that a painted tile paints, in order.
    pub painted: Vec<Painted>,
}

impl Worked {
    /// Whether another model's work is the same, with numbers compared by their bits.
    pub fn is_same(&self, other: &Self) -> bool {
        self.decision.bits() == other.decision.bits()
            && (&self.list, self.skipped, self.settled) == (&other.list, other.skipped, other.settled)
            && (self.cached, &self.queue) == (other.cached, &other.queue)
            && self.painted.len() == other.painted.len()
            && self.painted.iter().zip(&other.painted).all(|(one, other)| one.is_same(other))
    }
}

impl Decision {
    /// Its number, how many shown layers lie before those to mix, and the bits of both colours.
    fn bits(&self) -> (u32, usize, [[u32; 4]; 2]) {
        match *self {
            Self::None => (0, 0, [[0; 4]; 2]),
            Self::Solid { bottom, before, mixed } => (1, before, [bottom, mixed].map(|color| color.map(f32::to_bits))),
            Self::Paint => (2, 0, [[0; 4]; 2]),
        }
    }
}

impl Painted {
    pub fn is_same(&self, other: &Self) -> bool {
        let told = |one: &Self| (one.id, one.mark, one.clip, one.needs_clip);
        told(self) == told(other) && self.has_same_plane(other)
    }

    pub fn has_same_plane(&self, other: &Self) -> bool {
        self.plane.iter().zip(&other.plane).all(|(one, other)| one.to_bits() == other.to_bits())
    }
}
