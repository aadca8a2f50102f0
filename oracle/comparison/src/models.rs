//! A row in the Rust and in the second model, side by side. The second model is the Rust with two lines changed
//! (reference/build.rs): a NonZero cover is full where each row's absolute value is 16 or more (W-205), and in the
//! full-cover pass layers count as removed where a listed clip is changed (W-208).
//! A tile is judged by the Rust; where W-205 or W-208 leaves the Rust out, by the second model.

use reference::{
    cpu::Channel,
    painter::row::{Frame, Row},
    plain::{Cached, Carry, Decision, Entry, Painted, Record, Worked},
    Table,
};

use double_windings as second;

/// The cover of a pixel row that is once around.
const ONCE: u8 = 16;

/// A layer table in both.
pub struct Tables {
    records: Vec<Record>,
    rust: Table,
    second: second::Table,
}

impl Tables {
    pub fn new(records: &[Record]) -> Self {
        Self { records: records.to_vec(), rust: Table::new(records), second: second::Table::new(records) }
    }
}

/// A row in both, tile after tile.
pub struct Models<'t> {
    records: &'t [Record],
    rust: Row<'t>,
    second: second::painter::row::Row<'t>,
    /// Why the tile just worked is left out.
    why: Option<Why>,
}

/// What the library must answer for a tile.
pub struct Judged {
    pub worked: Worked,
    /// Where the second model judges.
    pub left_out: Option<LeftOut>,
}

/// Why the Rust does not judge a tile: a listed NonZero layer has an incoming cover above 16 in absolute value (W-205);
/// or else a listed clip is changed (W-208).
#[derive(Clone, Copy, Debug, Eq, PartialEq)]
pub enum Why {
    Winding,
    Clip,
}

/// What the Rust says of a tile in which it does not judge.
pub struct LeftOut {
    pub why: Why,
    /// The layers that it paints: their coverages are compared still.
    pub painted: Vec<Painted>,
    /// Whether its answer is another one.
    pub is_other: bool,
}

impl<'t> Models<'t> {
    pub fn open(tile_y: usize, from: usize, to: usize, words: &[u64], tables: &'t Tables) -> Self {
        let rust = Row::open(tile_y, from, to, words, &tables.rust);
        let second = second::painter::row::Row::open(tile_y, from, to, words, &tables.second);
        Self { records: &tables.records, rust, second, why: None }
    }

    pub fn queue(&self) -> Vec<Carry> {
        self.rust.queue()
    }

    /// Another queue in place of the one that the last tile handed on.
    pub fn take_queue(&mut self, queue: &[Carry]) {
        self.rust.take_queue(queue);
        self.second.take_queue(queue);
    }

    /// The next tile. The two agree in all that W-205 and W-208 do not touch, and in everything where the Rust judges.
    pub fn work(&mut self, tile: usize, frame: &Frame, cached: Option<Cached>) -> Judged {
        let rust = self.rust.work(tile, frame, cached);
        let second = self.second.work(tile, &frame_of(frame), cached);
        let is_other = !rust.is_same(&second);
        self.why = why(&rust.list, self.records);
        let Some(why) = self.why else {
            assert!(!is_other, "the second model differs where no NonZero carry is above 16 and no clip is changed");
            return Judged { worked: rust, left_out: None };
        };
        assert!(agree(&rust, &second), "the second model has another list, other carries or other coverages");
        assert!(
            why == Why::Winding || !is_other || is_kept_otherwise(&rust, &second),
            "a changed clip takes more from the Rust than its none"
        );
        Judged { worked: second, left_out: Some(LeftOut { why, painted: rust.painted, is_other }) }
    }

    /// The display bytes of a tile that was painted, column by column: red, green, blue, alpha.
    pub fn pixels(&mut self) -> Vec<[u8; 4]> {
        self.second.pixels(second::cpu::RGBA)
    }

    /// One layer of the tile just worked.
    pub fn paint(&mut self, id: u32) -> Painted {
        let (rust, second) = (self.rust.paint(id), self.second.paint(id));
        assert!(rust.has_same_plane(&second), "the second model has other coverages");
        assert!(self.why == Some(Why::Winding) || rust.is_same(&second), "the second model paints otherwise");
        second
    }
}

/// Whether a cover is full, by the second model.
pub fn is_full(cover: [i8; 16], rule: usize) -> bool {
    second::painter::is_full(cover, second::plain::RULES[rule])
}

/// Whether a cover is above 16 in some row, either way.
pub fn is_above_once(cover: &[i8; 16]) -> bool {
    cover.iter().any(|row| row.unsigned_abs() > ONCE)
}

/// Where a listed NonZero layer has such an incoming cover, only lists, carries and coverages are the Rust's; where a
/// listed clip is changed, all but its none.
fn why(list: &[Entry], records: &[Record]) -> Option<Why> {
    let record = |entry: &Entry| records.iter().find(|record| record.id == entry.id);
    let is_wound = |entry: &Entry| is_above_once(&entry.cover) && record(entry).is_some_and(|record| record.rule == 0);
    let is_changed_clip = |entry: &Entry| entry.changed && record(entry).is_some_and(|record| record.func == 1);
    let winding = list.iter().any(is_wound).then_some(Why::Winding);
    winding.or(list.iter().any(is_changed_clip).then_some(Why::Clip))
}

/// Whether the Rust keeps the tile and the second model does not, with the same masks and skips.
fn is_kept_otherwise(rust: &Worked, second: &Worked) -> bool {
    matches!(rust.decision, Decision::None)
        && !matches!(second.decision, Decision::None)
        && (&rust.list, rust.skipped) == (&second.list, second.skipped)
}

/// Whether lists, carries and the coverages of layers that both paint are the same.
fn agree(rust: &Worked, second: &Worked) -> bool {
    let listed = |worked: &Worked| -> Vec<_> {
        worked.list.iter().map(|entry| (entry.id, entry.cover, entry.has_segments, entry.changed)).collect()
    };
    let has_same_plane = |painted: &Painted| {
        rust.painted.iter().filter(|other| other.id == painted.id).all(|other| other.has_same_plane(painted))
    };
    listed(rust) == listed(second) && rust.queue == second.queue && second.painted.iter().all(has_same_plane)
}

fn frame_of(frame: &Frame) -> second::painter::row::Frame {
    let channels = frame.channels.map(|channel| match channel {
        Channel::Red => second::cpu::Channel::Red,
        Channel::Green => second::cpu::Channel::Green,
        Channel::Blue => second::cpu::Channel::Blue,
        Channel::Alpha => second::cpu::Channel::Alpha,
        Channel::Zero => second::cpu::Channel::Zero,
        Channel::One => second::cpu::Channel::One,
    });
    second::painter::row::Frame { clear: frame.clear, previous_clear: frame.previous_clear, channels }
}
