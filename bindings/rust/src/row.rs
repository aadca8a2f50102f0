//! A row of tiles, worked from left to right.

use std::{collections::BTreeSet, fmt, mem, ops::Range};

use crate::{
    cached_tile,
    cause::{self, told},
    exports,
    list::{Carry, Listed, Queue, TileList},
    segment, CachedTile, Cause, Color, Condition, Decision, LayerTable, Mark, PixelSegment, Plane, Refusal, RowNumber,
    Settled,
};

/// The colours behind all layers, in this frame and, where there was one, in the last.
#[derive(Clone, Copy, Debug, Default, PartialEq)]
pub struct Frame {
    /// The clear colour.
    pub clear: Color,
    /// The clear colour of the last frame.
    pub previous_clear: Option<Color>,
}

/// What the work on a tile gave. [`Row::listed`] has its layers, [`Row::carries`] what it handed on.
#[derive(Clone, Copy, Debug, PartialEq)]
#[non_exhaustive]
pub struct Worked {
    /// The tile.
    pub tile: i32,
    /// What is to be done with it.
    pub decision: Decision,
    /// How many layers are listed.
    pub listed: usize,
    /// How many of them, from the bottom, are passed over as covered.
    pub passed_over: usize,
}

/// A row's state, as the library keeps it: tile y, from, to, the next tile, whether the painter has a clip, the clip's
/// last layer; and how many carries are handed on and were taken in.
#[derive(Clone, Copy, Debug, Default, PartialEq, Eq)]
pub(crate) struct State {
    pub(crate) words: [u32; 6],
    pub(crate) counts: [usize; 2],
}

/// Where a caller stands in a row: the state, and two queues of carries that take turns.
#[derive(Clone, Debug)]
pub(crate) struct Standing {
    pub(crate) state: State,
    /// The queue that the tile just worked took in: painting reads it.
    pub(crate) taken: Box<Queue>,
    /// The queue that it handed on: the next tile takes it in.
    pub(crate) handed: Box<Queue>,
}

impl Standing {
    pub(crate) fn new() -> Standing {
        let queue = || Box::new(Queue::new());
        Standing { state: State::default(), taken: queue(), handed: queue() }
    }

    /// Lists the next tile and hands the carries on.
    pub(crate) fn list(
        &mut self,
        segments: &[PixelSegment],
        table: &LayerTable,
        tile: i32,
        list: &mut TileList,
    ) -> Result<(), Refusal> {
        let (layers, colors, count) = table.lent();
        let list = list.lent();
        let mut listed = 0;
        Refusal::judge(exports::list_tile(
            &mut self.state.words,
            &mut self.state.counts,
            tile,
            segment::words_of(segments),
            layers,
            colors,
            count,
            &self.handed.ids,
            &self.handed.covers,
            &mut self.taken.ids,
            &mut self.taken.covers,
            &mut list.ids,
            &mut list.covers,
            &mut list.flags,
            &mut listed,
        ))?;
        mem::swap(&mut self.taken, &mut self.handed);
        list.unmasked.fill(true);
        (list.tile, list.count, list.passed_over) = (tile, listed, 0);
        Ok(())
    }
}

/// The decision of a number that the library gives.
pub(crate) fn decision_of(code: usize, before: usize, bottom: [f32; 4]) -> Decision {
    match code {
        0 => Decision::None,
        1 => Decision::Solid { bottom: Color::from(bottom), before },
        _ => Decision::Paint,
    }
}

/// An open row: it borrows the row's segments and the layer table for its life, and owns the queues of carries and the
/// list, so nothing that it was opened with can change between two calls.
///
/// Many tiles in a call: [`work_tiles`](Row::work_tiles). Tile by tile: [`work`](Row::work), then, by its decision,
/// [`paint`](Row::paint) the shown layers, or mix their colours and [`settle`](Row::settle) the bytes. A call that is
/// turned down leaves the row as it was, and it can be used on.
///
/// A row is `Send`: rows of a plate may be worked on several threads.
#[derive(Clone)]
pub struct Row<'a> {
    segments: &'a [PixelSegment],
    table: &'a LayerTable,
    pub(crate) at: Standing,
    pub(crate) list: TileList,
}

impl<'a> Row<'a> {
    /// Opens row `tile_y` for the tiles of a range, with a carry for each layer that has segments left of the first.
    ///
    /// # Errors
    ///
    /// Refused by 2 (row number or range), 3 (the segments are no row), 4 and 1 (the table), 7 (more than 256 layers to
    /// the left) and 9 (their covers).
    pub fn open(
        segments: &'a [PixelSegment],
        table: &'a LayerTable,
        tile_y: impl Into<i32>,
        tiles: Range<i32>,
    ) -> Result<Row<'a>, Refusal> {
        let tile_y = tile_y.into();
        let mut row = Row { segments, table, at: Standing::new(), list: TileList::new() };
        let (layers, colors, count) = table.lent();
        Refusal::judge(exports::open_tile_row(
            tile_y,
            tiles.start,
            tiles.end,
            segment::words_of(segments),
            layers,
            colors,
            count,
            &mut row.at.handed.ids,
            &mut row.at.handed.covers,
            &mut row.at.state.words,
            &mut row.at.state.counts,
        ))
        .map_err(|refusal| {
            let left = || segments.iter().map(|one| one.fields()).filter(|one| i32::from(one.tile_x) < tiles.start);
            refusal.found(|condition| match condition {
                Condition::Tile => Some(cause::ends(tile_y, tiles.start, tiles.end, RowNumber::LAST.get())),
                Condition::Row => cause::row(segments.iter().map(|one| one.fields()), tile_y),
                Condition::Room | Condition::Table => cause::table(layers, colors, count),
                Condition::Layers => {
                    let layers: BTreeSet<u32> = left().map(|one| one.layer_id).collect();
                    Some(Cause::Layers { count: told(layers.len()) })
                }
                Condition::Covers => {
                    cause::covers([].into_iter(), left().map(|one| (one.layer_id, one.local_y, one.cover)))
                }
                _ => None,
            })
        })?;
        Ok(row)
    }

    /// The row's number.
    #[must_use]
    pub fn number(&self) -> RowNumber {
        RowNumber::try_from(self.at.state.words[0]).expect("an opened row has a number")
    }

    /// The row's segments.
    #[must_use]
    pub fn segments(&self) -> &'a [PixelSegment] {
        self.segments
    }

    /// The layer table.
    #[must_use]
    pub fn table(&self) -> &'a LayerTable {
        self.table
    }

    /// The tiles that the row was opened for.
    #[must_use]
    pub fn tiles(&self) -> Range<i32> {
        // An opened range is within 0 to 4,095.
        self.at.state.words[1] as i32..self.at.state.words[2] as i32
    }

    /// The tile that is worked next; the end of [`tiles`](Row::tiles) after the last.
    #[must_use]
    pub fn next_tile(&self) -> i32 {
        self.at.state.words[3] as i32
    }

    /// Works a tile: lists its layers, decides, and hands the carries on. Where a cached tile is given, its count is
    /// updated, and its colour let go where the tile is painted.
    ///
    /// # Errors
    ///
    /// Refused by 2 (not the next tile, or past the last), 6 (the tag), 7, 8 (a listed layer that the table lacks), 9.
    pub fn work(&mut self, tile: i32, frame: &Frame, cached: Option<&mut CachedTile>) -> Result<Worked, Refusal> {
        let mut none = CachedTile::default();
        let is_cached = cached.is_some();
        let cached = cached.unwrap_or(&mut none);
        let previous = frame.previous_clear.unwrap_or_default();
        let (layers, colors, count) = self.table.lent();
        let list = self.list.lent();
        let mut told = [0; 4];
        let mut bottom = [0.0; 4];
        // This judges row, table and queue again; `work_tiles` does so once for many tiles.
        let number = exports::work_tile(
            &mut self.at.state.words,
            &mut self.at.state.counts,
            tile,
            segment::words_of(self.segments),
            layers,
            colors,
            count,
            is_cached,
            &mut cached.0,
            &frame.clear.numbers(),
            frame.previous_clear.is_some(),
            &previous.numbers(),
            &self.at.handed.ids,
            &self.at.handed.covers,
            &mut self.at.taken.ids,
            &mut self.at.taken.covers,
            &mut list.ids,
            &mut list.covers,
            &mut list.flags,
            &mut list.unmasked,
            &mut told,
            &mut bottom,
        );
        if let Err(refusal) = Refusal::judge(number) {
            return Err(self.refused(refusal, tile, Some(cached)));
        }
        // What was handed on is now taken in, and what was written is handed on.
        mem::swap(&mut self.at.taken, &mut self.at.handed);
        let [decision, before, listed, passed_over] = told;
        (list.tile, list.count, list.passed_over) = (tile, listed, passed_over);
        Ok(Worked { tile, decision: decision_of(decision, before, bottom), listed, passed_over })
    }

    /// Works the next tile; after the last it gives none.
    ///
    /// # Errors
    ///
    /// As [`work`](Row::work), but for 2.
    pub fn work_next(&mut self, frame: &Frame, cached: Option<&mut CachedTile>) -> Result<Option<Worked>, Refusal> {
        let tile = self.next_tile();
        if self.tiles().contains(&tile) {
            self.work(tile, frame, cached).map(Some)
        } else {
            Ok(None)
        }
    }

    /// Why the work or the listing of this tile was turned down.
    pub(crate) fn refused(&self, refusal: Refusal, tile: i32, cached: Option<&CachedTile>) -> Refusal {
        let own = || self.segments.iter().map(|one| one.fields()).filter(|one| i32::from(one.tile_x) == tile);
        let carries: Vec<Carry> = self.carries().collect();
        let listed: BTreeSet<u32> = carries.iter().map(|carry| carry.id).chain(own().map(|one| one.layer_id)).collect();
        refusal.found(|condition| match condition {
            Condition::Tile => Some(cause::next(tile, self.next_tile(), self.tiles().end)),
            Condition::Tag => cached.map(|cached| Cause::Tag { tag: cached.0[0] }),
            Condition::Layers => Some(Cause::Layers { count: told(listed.len()) }),
            Condition::Missing => self.table.lacking(listed.iter().copied()),
            Condition::Covers => cause::covers(
                carries.iter().map(|carry| (carry.id, &carry.cover.0[..])),
                own().map(|one| (one.layer_id, one.local_y, one.cover)),
            ),
            _ => None,
        })
    }

    /// Lists a tile without deciding about it, and hands the carries on: the first half of [`work`](Row::work). The
    /// tile may be painted at once; [`decide`](Row::decide) decides from the list, now or later. The row keeps no list
    /// of its own of it: [`listed`](Row::listed) is empty then.
    ///
    /// # Errors
    ///
    /// Refused by 2 (not the next tile, or past the last), 7, 8 (a listed layer that the table lacks), 9; the list is
    /// then as it was.
    pub fn list(&mut self, tile: i32, list: &mut TileList) -> Result<(), Refusal> {
        let listed = self.at.list(self.segments, self.table, tile, list);
        listed.map_err(|refusal| self.refused(refusal, tile, None))?;
        self.list.clear();
        Ok(())
    }

    /// Decides about a listed tile, from the list alone and the row's table: the second half of [`work`](Row::work).
    /// The list then tells what is masked off and passed over. It may be of any tile that was listed, and be decided
    /// again.
    ///
    /// # Errors
    ///
    /// Refused by 6 (the tag); a list that was listed with another table by 8 (a layer that this one lacks). The list
    /// is then as it was.
    pub fn decide(
        &self,
        list: &mut TileList,
        frame: &Frame,
        cached: Option<&mut CachedTile>,
    ) -> Result<Worked, Refusal> {
        let mut none = CachedTile::default();
        let is_cached = cached.is_some();
        let cached = cached.unwrap_or(&mut none);
        let previous = frame.previous_clear.unwrap_or_default();
        let (layers, colors, count) = self.table.lent();
        let list = list.lent();
        let mut told = [0; 3];
        let mut bottom = [0.0; 4];
        Refusal::judge(exports::decide_tile(
            &list.ids,
            &list.covers,
            &list.flags,
            list.count,
            layers,
            colors,
            count,
            is_cached,
            &mut cached.0,
            &frame.clear.numbers(),
            frame.previous_clear.is_some(),
            &previous.numbers(),
            &mut list.unmasked,
            &mut told,
            &mut bottom,
        ))
        .map_err(|refusal| {
            refusal.found(|condition| match condition {
                Condition::Tag => Some(Cause::Tag { tag: cached.0[0] }),
                Condition::Missing => self.table.lacking(list.ids[..list.count].iter().copied()),
                _ => None,
            })
        })?;
        let [decision, before, passed_over] = told;
        list.passed_over = passed_over;
        let decision = decision_of(decision, before, bottom);
        Ok(Worked { tile: list.tile, decision, listed: list.count, passed_over })
    }

    /// The list of the tile just worked, ascending: the bottom layer first. Empty before the first tile, after a tile
    /// that was only listed, and after a batch.
    #[must_use]
    pub fn listed(&self) -> impl DoubleEndedIterator<Item = Listed> + ExactSizeIterator + '_ {
        self.list.listed()
    }

    /// What the tile just worked took in, ascending by layer. Empty before the first tile.
    #[must_use]
    pub fn incoming(&self) -> impl ExactSizeIterator<Item = Carry> + '_ {
        self.at.taken.carries(self.at.state.counts[1])
    }

    /// What is handed on to the next tile, ascending by layer; before the first tile what the row opened with.
    #[must_use]
    pub fn carries(&self) -> impl ExactSizeIterator<Item = Carry> + '_ {
        self.at.handed.carries(self.at.state.counts[0])
    }

    /// Paints a layer of the tile just worked or listed: its coverages into the plane, and their mark. A clip becomes
    /// the painter's clip and has mark 0; a draw that lacks a clip that it needs has mark 0 too, while its plane is
    /// written.
    ///
    /// The painter paints the shown layers, ascending ([`paint_shown`](Row::paint_shown)); any layer of the table is
    /// accepted, by the same rules.
    ///
    /// # Errors
    ///
    /// Refused by 2 (no tile was worked or listed yet), 8 (the table lacks the layer).
    pub fn paint(&mut self, layer: u32, plane: &mut Plane) -> Result<Mark, Refusal> {
        let (layers, colors, count) = self.table.lent();
        let tile = self.next_tile() - 1;
        let mut mark = 0;
        Refusal::judge(exports::paint_layer(
            &mut self.at.state.words,
            &mut self.at.state.counts,
            tile,
            layer,
            segment::words_of(self.segments),
            layers,
            colors,
            count,
            &self.at.taken.ids,
            &self.at.taken.covers,
            plane.as_numbers_mut(),
            &mut mark,
        ))
        .map_err(|refusal| {
            refusal.found(|condition| match condition {
                Condition::Tile => Some(Cause::NoTile),
                Condition::Missing => Some(Cause::Missing { layer }),
                _ => None,
            })
        })?;
        Ok(Mark(mark))
    }

    /// Paints the shown layers of the tile just worked, ascending, each into the same plane, and tells of each. This is
    /// due where the decision is [`Paint`](Decision::Paint).
    ///
    /// # Errors
    ///
    /// None that a row that was worked meets: each shown layer is listed, and so in the table.
    pub fn paint_shown(
        &mut self,
        plane: &mut Plane,
        mut painted: impl FnMut(Listed, &Plane, Mark),
    ) -> Result<(), Refusal> {
        for place in self.list.passed_over..self.list.count {
            let listed = self.list.at(place);
            if listed.is_shown() {
                let mark = self.paint(listed.id, plane)?;
                painted(listed, plane, mark);
            }
        }
        Ok(())
    }

    /// Settles the tile just worked with the four display bytes of its colour, due where the decision is
    /// [`Solid`](Decision::Solid): whether they are to be written. The same as [`settle`](crate::settle), which needs
    /// no row.
    ///
    /// # Errors
    ///
    /// Refused by 6 (the tag).
    pub fn settle(&self, cached: Option<&mut CachedTile>, color: [u8; 4]) -> Result<Settled, Refusal> {
        cached_tile::settle(cached, color)
    }
}

/// Where it stands, and what is handed on.
impl fmt::Debug for Row<'_> {
    fn fmt(&self, f: &mut fmt::Formatter<'_>) -> fmt::Result {
        f.debug_struct("Row")
            .field("number", &self.number().get())
            .field("tiles", &self.tiles())
            .field("next_tile", &self.next_tile())
            .field("segments", &self.segments.len())
            .field("layers", &self.table.len())
            .field("carries", &self.carries().collect::<Vec<_>>())
            .finish_non_exhaustive()
    }
}
