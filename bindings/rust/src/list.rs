//! Lists of layers and queues of carries, by columns.

use crate::Cover;

/// How many entries the library asks of every queue and list.
pub(crate) const ENTRIES: usize = 256;

/// How many flags a list has: for each entry whether its layer has segments in the tile, and behind these whether it is
/// changed.
const FLAGS: usize = 2 * ENTRIES;

/// A layer in a tile's list.
#[derive(Clone, Copy, Debug, PartialEq, Eq, Hash)]
#[non_exhaustive]
pub struct Listed {
    /// The layer's id.
    pub id: u32,
    /// Its cover from the left.
    pub cover: Cover,
    /// Whether it has segments in the tile.
    pub has_segments: bool,
    /// Whether it is changed, as the table says.
    pub is_changed: bool,
    /// Whether a pass over clips masked it off.
    pub is_masked_off: bool,
    /// Whether a layer above hides it.
    pub is_passed_over: bool,
}

impl Listed {
    /// Whether it is neither masked off nor passed over.
    #[must_use]
    pub fn is_shown(&self) -> bool {
        !self.is_masked_off && !self.is_passed_over
    }
}

/// What a tile hands on to the next of a layer.
#[derive(Clone, Copy, Debug, PartialEq, Eq, Hash)]
pub struct Carry {
    /// The layer's id.
    pub id: u32,
    /// Its cover.
    pub cover: Cover,
}

/// A queue of carries, by columns.
#[derive(Clone, Debug)]
pub(crate) struct Queue {
    pub(crate) ids: [u32; ENTRIES],
    pub(crate) covers: [i8; 16 * ENTRIES],
}

impl Queue {
    pub(crate) const fn new() -> Queue {
        Queue { ids: [0; ENTRIES], covers: [0; 16 * ENTRIES] }
    }

    pub(crate) fn carries(&self, count: usize) -> impl ExactSizeIterator<Item = Carry> + '_ {
        (0..count).map(|place| Carry { id: self.ids[place], cover: cover_at(&self.covers, place) })
    }
}

/// A tile's list, by columns. It is lent to [`Row::list`](crate::Row::list) and [`Row::decide`](crate::Row::decide), and
/// may be kept and decided later.
#[derive(Clone, Debug)]
pub struct TileList {
    pub(crate) tile: i32,
    pub(crate) ids: Vec<u32>,
    pub(crate) covers: Vec<i8>,
    /// Whether each has segments, and from `ENTRIES` on whether each is changed.
    pub(crate) flags: Vec<bool>,
    pub(crate) unmasked: Vec<bool>,
    pub(crate) count: usize,
    pub(crate) passed_over: usize,
}

impl TileList {
    /// An empty list. Its columns are made when it is first lent: a row that is worked in batches needs none.
    #[must_use]
    pub fn new() -> TileList {
        let (ids, covers, flags, unmasked) = (Vec::new(), Vec::new(), Vec::new(), Vec::new());
        TileList { tile: -1, ids, covers, flags, unmasked, count: 0, passed_over: 0 }
    }

    /// Its columns as long as the library asks for.
    pub(crate) fn lent(&mut self) -> &mut TileList {
        if self.ids.is_empty() {
            self.ids = vec![0; ENTRIES];
            self.covers = vec![0; 16 * ENTRIES];
            self.flags = vec![false; FLAGS];
            self.unmasked = vec![false; ENTRIES];
        }
        self
    }

    /// The tile that was listed; -1 before any was.
    #[must_use]
    pub fn tile(&self) -> i32 {
        self.tile
    }

    /// Its layers, ascending: the bottom layer first. Until the list is decided, none is masked off or passed over.
    #[must_use]
    pub fn listed(&self) -> impl DoubleEndedIterator<Item = Listed> + ExactSizeIterator + '_ {
        (0..self.count).map(|place| self.at(place))
    }

    /// No layer is listed.
    pub(crate) fn clear(&mut self) {
        (self.count, self.passed_over) = (0, 0);
    }

    #[inline]
    pub(crate) fn at(&self, place: usize) -> Listed {
        Listed {
            id: self.ids[place],
            cover: cover_at(&self.covers, place),
            has_segments: self.flags[place],
            is_changed: self.flags[ENTRIES + place],
            is_masked_off: !self.unmasked[place],
            is_passed_over: place < self.passed_over,
        }
    }
}

impl Default for TileList {
    fn default() -> TileList {
        TileList::new()
    }
}

#[inline]
fn cover_at(covers: &[i8], place: usize) -> Cover {
    Cover(covers[16 * place..16 * place + 16].try_into().expect("16 covers an entry"))
}
