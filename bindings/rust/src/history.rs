//! Tiles from frame to frame, by the rule under which none is kept that would be drawn in another way.

use std::mem;

use crate::{cached_tile, CachedTile, Color, Decision, Frame, LayerTable, Refusal, Row, Settled, TileList, Worked};

/// A tile from frame to frame. It owns the [`CachedTile`], and remembers of the tile's last accepted work which layers
/// it showed and which of them needed a clip, the bits of the clear colour, where the row began, and in which frame it
/// was.
///
/// [`Row::work`] with a [`CachedTile`] decides as the Rust does, which at times keeps a tile with a wrong picture for
/// good: a label that leaves a tile while a hidden layer enters it is enough. [`TileHistory::work`] lets the kept count
/// stay only where the shown layers, clips too, are those of the last work by their ids and by whether each needs a
/// clip, and the clear colour has the bits that it had; and where the tile was worked in the frame before, in a row that
/// began at the same tile. Else the tile is drawn afresh.
///
/// What is left to the caller:
/// - Frames are numbered one by one. A layer that the table calls unchanged stood in the frame before, with the same
///   record and the same segments in this row; and a gradient or a texture with the same contents.
/// - What is decided is done: a painted tile is painted, a solid one is [settled](TileHistory::settle) and written
///   where that says so. Whoever draws into the tile in another way calls [`forget`](TileHistory::forget).
///
/// Then a tile that is decided as [`None`](Decision::None) would be drawn afresh by the same decision and the same
/// calls: each painted layer with the same style, coverages, mark and mask, under the same clear colour. And where
/// settling answers [`Keep`](Settled::Keep), the whole tile shows these bytes. What is proved of the rule stands in
/// docs/statements/kept.md; that this type follows it is tested, not proved.
#[derive(Clone, Debug, Default)]
pub struct TileHistory {
    cached: CachedTile,
    last: Option<Last>,
}

/// The tile's last accepted work.
#[derive(Clone, Debug)]
struct Last {
    frame: u64,
    first_tile: i32,
    clear: Color,
    is_solid: bool,
    shown: Vec<u32>,
}

impl TileHistory {
    /// A tile that was never drawn.
    #[must_use]
    pub fn new() -> TileHistory {
        TileHistory::default()
    }

    /// What is kept of the tile.
    #[must_use]
    pub fn cached(&self) -> CachedTile {
        self.cached
    }

    /// The next work draws the tile afresh, and settling says write.
    pub fn forget(&mut self) {
        *self = TileHistory::default();
    }

    /// Works the tile as [`Row::work`] does, in a frame of this number and clear colour, by the rule. It is the same
    /// tile of the same row of tiles in every frame.
    ///
    /// # Errors
    ///
    /// Refused by 2 (not the next tile, or past the last), 7, 8 (a listed layer that the table lacks), 9. The row and
    /// the history are then as they were, and the tile counts as not worked in this frame.
    pub fn work(&mut self, row: &mut Row<'_>, tile: i32, frame: u64, clear: Color) -> Result<Worked, Refusal> {
        let mut list = mem::take(&mut row.list);
        let worked = self.work_by_rule(row, &mut list, tile, frame, clear);
        row.list = list;
        worked
    }

    fn work_by_rule(
        &mut self,
        row: &mut Row<'_>,
        list: &mut TileList,
        tile: i32,
        frame: u64,
        clear: Color,
    ) -> Result<Worked, Refusal> {
        row.list(tile, list)?;
        let frames = Frame { clear, previous_clear: self.last.as_ref().map(|last| last.clear) };
        // Without a cached tile: what the tile shows when it is drawn.
        row.decide(list, &frames, None)?;
        let now =
            Last { frame, first_tile: row.tiles().start, clear, is_solid: false, shown: shown(row.table(), list) };
        let mut cached = self.cached;
        if !self.last.as_ref().is_some_and(|last| now.may_keep(last)) {
            cached.update_layer_count(None);
        }
        let worked = row.decide(list, &frames, Some(&mut cached))?;
        let is_solid = matches!(worked.decision, Decision::Solid { .. });
        (self.cached, self.last) = (cached, Some(Last { is_solid, ..now }));
        Ok(worked)
    }

    /// Settles the tile with the four display bytes of its colour, due where the last work decided it as
    /// [`Solid`](Decision::Solid): whether they are to be written.
    ///
    /// After any other decision no bytes fill the tile. Then the answer is [`Write`](Settled::Write), and the tile is
    /// [forgotten](TileHistory::forget).
    ///
    /// # Errors
    ///
    /// None that the tile's own bytes meet: the tag is a history's.
    pub fn settle(&mut self, color: [u8; 4]) -> Result<Settled, Refusal> {
        if self.last.as_ref().is_some_and(|last| last.is_solid) {
            return cached_tile::settle(Some(&mut self.cached), color);
        }
        self.forget();
        Ok(Settled::Write)
    }
}

impl Last {
    /// Whether the count of the last work may stay at this one.
    fn may_keep(&self, last: &Last) -> bool {
        let bits = |color: Color| color.numbers().map(f32::to_bits);
        last.frame.checked_add(1) == Some(self.frame)
            && last.first_tile == self.first_tile
            && bits(last.clear) == bits(self.clear)
            && last.shown == self.shown
    }
}

/// The shown layers of a list that was decided without a cached tile, ascending. Each is twice its id, which has 21
/// bits, and one more where it needs a clip: where it is clipped, and not within the span of a full clip that is the
/// nearest listed below it.
fn shown(table: &LayerTable, list: &TileList) -> Vec<u32> {
    let mut shown = Vec::with_capacity(list.count - list.passed_over);
    let mut full_up_to = None;
    for (listed, layer) in list.listed().zip(table.listed(list)) {
        if let Some(last) = layer.clip_end() {
            let is_full = !listed.has_segments && listed.cover.is_full(layer.rule());
            full_up_to = is_full.then_some(last);
        }
        if listed.is_shown() {
            let needs_clip = layer.is_clipped() && full_up_to.is_none_or(|last| listed.id > last);
            shown.push(2 * listed.id + u32::from(needs_clip));
        }
    }
    shown
}
