//! Why a call is turned down.

use std::{
    cmp::Ordering,
    error::Error,
    fmt,
    hash::{Hash, Hasher},
};

use crate::Cause;

/// The conditions under which a call is turned down, with their numbers.
///
/// Number 10 is the programs' own: no operation of the library reads a job text.
#[derive(Clone, Copy, Debug, PartialEq, Eq, PartialOrd, Ord, Hash)]
#[non_exhaustive]
#[repr(u8)]
pub enum Condition {
    /// 1: lent memory is too short.
    Room = 1,
    /// 2: a tile, a row number or a range of tiles is not what the call allows.
    Tile = 2,
    /// 3: the segments are no row, or not of one layer and tile.
    Row = 3,
    /// 4: the layer table, or a record, is none.
    Table = 4,
    /// 5: the queue of carries, or a list, is none.
    Queue = 5,
    /// 6: the tag of a cached tile is none.
    Tag = 6,
    /// 7: there are too many layers.
    Layers = 7,
    /// 8: the table lacks a layer.
    Missing = 8,
    /// 9: covers grow too large.
    Covers = 9,
    /// 10: a job text is malformed.
    JobText = 10,
    /// 11: a field that is to be packed is out of its range.
    Field = 11,
    /// 12: a segment that is to be let out is not held.
    NotHeld = 12,
    /// 13: every slot for segments is held.
    Slots = 13,
    /// 14: the bounds of a cover are none.
    Bounds = 14,
    /// 15: two records of one layer have the same revision.
    Revisions = 15,
}

/// Why a call is turned down: a condition of the table of refusals, of those that apply the one with the lowest number,
/// and, where it is known, what of that which was lent meets it. After a refusal everything that was lent to the call is
/// as it was.
///
/// The condition is the library's answer; the [cause](Refusal::cause) is looked for after it, so that calls that are
/// accepted pay nothing for it. Refusals are equal that have the same condition, whatever their causes:
/// `row.work(9, ..) == Err(Refusal::Tile)`. To match, take the [condition](Refusal::condition).
///
/// ```
/// use tile_rows::{Fields, PixelSegment, Refusal};
///
/// let fields =
///     Fields { layer_id: 5, tile_x: 4_095, tile_y: 0, local_x: 3, local_y: 4, double_area_multiplier: 32, cover: 16 };
/// let refusal = PixelSegment::new(fields).unwrap_err();
/// assert_eq!(refusal, Refusal::Field);
/// assert_eq!(refusal.to_string(), "refused 11: tile x is 4095, and a segment holds -1 to 4094");
/// ```
#[derive(Clone, Copy)]
pub struct Refusal {
    condition: Condition,
    cause: Option<Cause>,
}

/// Refusals without a cause, to compare with.
#[allow(non_upper_case_globals)] // the names of the conditions
#[allow(missing_docs)] // and what these say
impl Refusal {
    pub const Room: Refusal = Refusal::of(Condition::Room);
    pub const Tile: Refusal = Refusal::of(Condition::Tile);
    pub const Row: Refusal = Refusal::of(Condition::Row);
    pub const Table: Refusal = Refusal::of(Condition::Table);
    pub const Queue: Refusal = Refusal::of(Condition::Queue);
    pub const Tag: Refusal = Refusal::of(Condition::Tag);
    pub const Layers: Refusal = Refusal::of(Condition::Layers);
    pub const Missing: Refusal = Refusal::of(Condition::Missing);
    pub const Covers: Refusal = Refusal::of(Condition::Covers);
    pub const JobText: Refusal = Refusal::of(Condition::JobText);
    pub const Field: Refusal = Refusal::of(Condition::Field);
    pub const NotHeld: Refusal = Refusal::of(Condition::NotHeld);
    pub const Slots: Refusal = Refusal::of(Condition::Slots);
    pub const Bounds: Refusal = Refusal::of(Condition::Bounds);
    pub const Revisions: Refusal = Refusal::of(Condition::Revisions);
}

impl Refusal {
    /// Every refusal, ascending by its number.
    pub const ALL: [Refusal; 15] = [
        Refusal::Room,
        Refusal::Tile,
        Refusal::Row,
        Refusal::Table,
        Refusal::Queue,
        Refusal::Tag,
        Refusal::Layers,
        Refusal::Missing,
        Refusal::Covers,
        Refusal::JobText,
        Refusal::Field,
        Refusal::NotHeld,
        Refusal::Slots,
        Refusal::Bounds,
        Refusal::Revisions,
    ];

    /// The refusal of a condition, of which no cause is told.
    #[must_use]
    pub const fn of(condition: Condition) -> Refusal {
        Refusal { condition, cause: None }
    }

    /// The condition that applies.
    #[must_use]
    pub const fn condition(self) -> Condition {
        self.condition
    }

    /// What of that which was lent meets the condition, where it is known.
    #[must_use]
    pub const fn cause(self) -> Option<Cause> {
        self.cause
    }

    /// Its number in the table.
    #[must_use]
    pub const fn number(self) -> u32 {
        self.condition as u32
    }

    /// The refusal of a number.
    #[must_use]
    pub fn from_number(number: u32) -> Option<Refusal> {
        Refusal::ALL.into_iter().find(|refusal| refusal.number() == number)
    }

    /// What the answer of a plain operation ([`exports`](crate::exports)) says: 0 is a pass.
    ///
    /// # Errors
    ///
    /// Where the number is not 0, the refusal of this number, without a cause.
    ///
    /// # Panics
    ///
    /// Where the number is none of the table, which no operation answers.
    #[inline]
    pub fn judge(number: u32) -> Result<(), Refusal> {
        match number {
            0 => Ok(()),
            _ => Err(Refusal::from_number(number).expect("the library answers numbers of the table only")),
        }
    }

    /// The same refusal with what is found to be its cause.
    #[cold]
    pub(crate) fn found(self, find: impl FnOnce(Condition) -> Option<Cause>) -> Refusal {
        Refusal { cause: find(self.condition), ..self }
    }

    /// What it means of any call, as one sentence without a full stop.
    #[must_use]
    pub const fn meaning(self) -> &'static str {
        match self.condition {
            Condition::Room => {
                "lent memory is too short: a queue or list below 256 entries, a plane below 256 numbers (64 where tiles \
                 are four pixels high), a layer table shorter than its count, or fewer bounds than segments"
            }
            Condition::Tile => {
                "the tile is not the next (in painting: not the one just worked) or outside the row's tiles, the row \
                 number is not 0 to 2046 (8190 where tiles are four pixels high), or the range of tiles is not within 0 \
                 to 4095"
            }
            Condition::Row => {
                "the row's segments descend, or one has another tile y; in a set or a part, one is of another layer or tile"
            }
            Condition::Table => {
                "layer ids don't strictly ascend or are not 0 to 2097151, or a code or span is out of range"
            }
            Condition::Queue => "the queue counts more than 256 carries, or ids don't strictly ascend",
            Condition::Tag => "the cached tile's tag is above 3",
            Condition::Layers => "there are more than 256 layers in a tile's list or in the row's opening",
            Condition::Missing => "a listed or painted layer is not in the table",
            Condition::Covers => {
                "a layer and pixel row has an absolute incoming cover plus absolute segment covers above 127"
            }
            Condition::JobText => "the job text is malformed",
            Condition::Field => "a field that is to be packed is out of its range",
            Condition::NotHeld => "a segment that is to be let out is not held",
            Condition::Slots => "a segment is to be taken in, and the lent slots are all held",
            Condition::Bounds => "a lowest cover is above its highest, or a segment's bound is not -32 to 31",
            Condition::Revisions => "two records of one layer have equal revisions",
        }
    }
}

impl PartialEq for Refusal {
    fn eq(&self, other: &Refusal) -> bool {
        self.condition == other.condition
    }
}

impl Eq for Refusal {}

impl PartialOrd for Refusal {
    fn partial_cmp(&self, other: &Refusal) -> Option<Ordering> {
        Some(self.cmp(other))
    }
}

impl Ord for Refusal {
    fn cmp(&self, other: &Refusal) -> Ordering {
        self.condition.cmp(&other.condition)
    }
}

impl Hash for Refusal {
    fn hash<H: Hasher>(&self, state: &mut H) {
        self.condition.hash(state);
    }
}

impl fmt::Debug for Refusal {
    fn fmt(&self, f: &mut fmt::Formatter<'_>) -> fmt::Result {
        match &self.cause {
            Some(cause) => write!(f, "{:?}({cause:?})", self.condition),
            None => self.condition.fmt(f),
        }
    }
}

impl fmt::Display for Refusal {
    fn fmt(&self, f: &mut fmt::Formatter<'_>) -> fmt::Result {
        write!(f, "refused {}: ", self.number())?;
        match self.cause {
            Some(cause) => cause.fmt(f),
            None => f.write_str(self.meaning()),
        }
    }
}

impl Error for Refusal {}

impl From<Condition> for Refusal {
    fn from(condition: Condition) -> Refusal {
        Refusal::of(condition)
    }
}
