//! When a tile may keep its count, written a second time: of the Rust's lists, and of numbers that a caller remembers.

use reference::plain::{Record, Rgba, Worked};

use crate::models::is_full;

/// What is remembered of a tile's last accepted work.
#[derive(Clone, Debug)]
pub struct Last {
    pub frame: usize,
    pub from: usize,
    pub clear: Rgba,
    /// The shown layers, clips too, ascending, and whether each needs a clip.
    pub shown: Vec<(u32, bool)>,
}

impl Last {
    /// Whether the flags of the next work, which are truthful since the frame before, are so since this one too, and
    /// the clear colour has the bits of then.
    pub fn is_before(&self, next: &Last) -> bool {
        let bits = |last: &Last| last.clear.map(f32::to_bits);
        self.frame + 1 == next.frame && self.from == next.from && bits(self) == bits(next)
    }

    /// Whether the count may stay at the next work.
    pub fn may_keep(&self, next: &Last) -> bool {
        self.is_before(next) && self.shown == next.shown
    }
}

/// The shown layers of a tile that was worked without a cached tile. A clipped draw needs a clip unless the nearest
/// listed clip below it is full and reaches it.
pub fn shown_layers(worked: &Worked, records: &[Record]) -> Vec<(u32, bool)> {
    let record = |id| records.iter().find(|record| record.id == id).expect("a listed layer has a record");
    let mut clip = None;
    let mut shown = Vec::new();
    for (place, entry) in worked.list.iter().enumerate() {
        let layer = record(entry.id);
        if layer.func == 1 {
            clip = Some((entry.id + layer.span, !entry.has_segments && is_full(entry.cover, layer.rule as usize)));
        }
        let is_freed = clip.is_some_and(|(last, is_full)| entry.id <= last && is_full);
        if entry.shown && place >= worked.skipped {
            shown.push((entry.id, layer.func == 0 && layer.clipped == 1 && !is_freed));
        }
    }
    let painted: Vec<_> = worked.painted.iter().map(|painted| (painted.id, painted.needs_clip)).collect();
    assert!(painted.is_empty() || painted == shown, "the Rust paints others, or with other needs");
    shown
}
