//! Many tiles of a row worked and painted in one call.

use std::mem;

use crate::{
    cached_tile, exports, list::ENTRIES, plane, row::decision_of, segment, CachedTile, Decision, Frame, Mark, Plane,
    Refusal, Row,
};

/// What a batch of tiles gave ([`Row::work_tiles`]): their decisions, and the planes of those that are painted.
///
/// It owns the memory that the call writes, and is used again for batch after batch and row after row. It is `Send`:
/// each thread has its own.
#[derive(Clone, Debug)]
pub struct Batch {
    /// How many planes are used before a batch ends.
    wanted: usize,
    first: i32,
    worked: usize,
    /// Of each tile its decision, how many shown layers lie before those to mix, how many layers are listed, passed
    /// over, shown, and how many carries it hands on.
    told: Vec<[usize; 6]>,
    /// The bottom colour of each tile that is solid.
    bottoms: Vec<[f32; 4]>,
    /// A plane for each painted layer. A layer that a solid tile mixes leaves its plane as it was.
    planes: Vec<Plane>,
    /// Of each plane its layer's id and its mark.
    painted: Vec<[u32; 2]>,
}

/// Why a batch ended where it did.
#[derive(Clone, Copy, Debug, PartialEq, Eq)]
#[must_use]
pub enum BatchEnd {
    /// All tiles that were asked for are worked.
    Asked,
    /// The row has no further tile.
    RowEnd,
    /// There is no room for a further tile: the batch's planes are used, or `kept` has no cached tile for it.
    NoRoom,
    /// The next tile would be turned down, by this. The next call is.
    NextRefused(Refusal),
}

/// A tile of a batch.
#[derive(Clone, Copy, Debug)]
pub struct BatchTile<'a> {
    /// The tile.
    pub tile: i32,
    /// What is to be done with it.
    pub decision: Decision,
    /// How many layers are listed.
    pub listed: usize,
    /// How many of them, from the bottom, are passed over as covered.
    pub passed_over: usize,
    /// How many of them are shown: neither masked off nor passed over.
    pub shown: usize,
    /// How many carries it hands on.
    pub carried: usize,
    planes: &'a [Plane],
    painted: &'a [[u32; 2]],
    mixed: &'a [[u32; 2]],
}

/// A painted layer of a tile.
#[derive(Clone, Copy, Debug)]
#[non_exhaustive]
pub struct PaintedLayer<'a> {
    /// The layer's id.
    pub id: u32,
    /// The octets that its draw uses; 0 of a clip, and of a draw that lacks a clip that it needs.
    pub mark: Mark,
    /// Its coverages, which stay in the batch's memory.
    pub plane: &'a Plane,
}

impl Batch {
    /// A batch that takes tiles until 128 planes are used: so many stay in a processor's nearer memory.
    #[must_use]
    pub fn new() -> Batch {
        Batch::with_planes(128)
    }

    /// A batch that takes tiles until so many planes, or more, are used; 0 counts as 1. The last tile may use as many as
    /// the table has layers, 256 at most: for these there is room besides. A plane has 1 kB.
    #[must_use]
    pub fn with_planes(planes: usize) -> Batch {
        Batch {
            wanted: planes.max(1),
            first: -1,
            worked: 0,
            told: Vec::new(),
            bottoms: Vec::new(),
            planes: Vec::new(),
            painted: Vec::new(),
        }
    }

    /// The tiles that were worked, from left to right.
    #[must_use]
    pub fn tiles(&self) -> impl ExactSizeIterator<Item = BatchTile<'_>> + '_ {
        let (mut planes, mut painted) = (&self.planes[..], &self.painted[..]);
        (0..self.worked).map(move |place| {
            let [code, before, listed, passed_over, shown, carried] = self.told[place];
            let decision = decision_of(code, before, self.bottoms[place]);
            let (paints, mixes) = match decision {
                Decision::Paint => (shown, 0),
                Decision::Solid { before, .. } => (0, shown - before),
                Decision::None => (0, 0),
            };
            let used = (taken_off(&mut planes, paints + mixes), taken_off(&mut painted, paints + mixes));
            let (planes, (painted, mixed)) = (&used.0[..paints], used.1.split_at(paints));
            let tile = self.first + place as i32;
            BatchTile { tile, decision, listed, passed_over, shown, carried, planes, painted, mixed }
        })
    }

    /// Makes it empty, with room for so many tiles that each list so many layers at most. How many planes are lent.
    fn begin(&mut self, first: i32, tiles: usize, layers: usize) -> usize {
        (self.first, self.worked) = (first, 0);
        if self.told.len() < tiles {
            self.told.resize(tiles, [0; 6]);
            self.bottoms.resize(tiles, [0.0; 4]);
        }
        let room = self.wanted - 1 + layers;
        if self.planes.len() < room {
            self.planes.resize(room, Plane::new());
            self.painted.resize(room, [0; 2]);
        }
        room
    }
}

impl Default for Batch {
    fn default() -> Batch {
        Batch::new()
    }
}

/// The first things of a slice, which is shorter then.
fn taken_off<'a, T>(slice: &mut &'a [T], count: usize) -> &'a [T] {
    let (first, rest) = slice.split_at(count);
    *slice = rest;
    first
}

impl<'a> BatchTile<'a> {
    /// Where the tile is painted: its shown layers, ascending, with their coverages and marks.
    #[must_use]
    pub fn painted(&self) -> impl DoubleEndedIterator<Item = PaintedLayer<'a>> + ExactSizeIterator + 'a {
        let layers = self.painted.iter().zip(self.planes);
        layers.map(|(&[id, mark], plane)| PaintedLayer { id, mark: Mark(mark), plane })
    }

    /// Where it is solid: the layers whose colours are mixed above the bottom colour, ascending.
    #[must_use]
    pub fn mixed(&self) -> impl DoubleEndedIterator<Item = u32> + ExactSizeIterator + 'a {
        self.mixed.iter().map(|&[id, _]| id)
    }
}

impl Row<'_> {
    /// Works and paints up to so many tiles from the next on, in one call of the library, which judges the row and the
    /// table once: [`work`](Row::work) and [`paint_shown`](Row::paint_shown) of one after the other. Asking for more
    /// tiles than the row has is no fault. The batch then tells of the tiles that were worked, and the answer why it
    /// ended:
    ///
    /// ```
    /// # use tile_rows::{Batch, BatchEnd, Color, Frame, LayerTable, Refusal, Row};
    /// # fn main() -> Result<(), Refusal> {
    /// # let table = LayerTable::new(&[]);
    /// # let mut row = Row::open(&[], &table, 0, 0..300)?;
    /// # let frame = Frame { clear: Color::default(), previous_clear: None };
    /// # let (mut batch, mut worked) = (Batch::new(), 0);
    /// loop {
    ///     let end = row.work_tiles(64, &frame, None, &mut batch)?;
    ///     for tile in batch.tiles() {
    ///         // ..
    /// #       worked += 1;
    ///     }
    ///     if end == BatchEnd::RowEnd {
    ///         break;
    ///     }
    /// }
    /// # assert_eq!(worked, 300);
    /// # Ok(())
    /// # }
    /// ```
    ///
    /// `kept` has a cached tile for each tile of the row, that of the first of [`tiles`](Row::tiles) first. Where it is
    /// shorter the row is worked up to its end: [`NoRoom`](BatchEnd::NoRoom) without a tile says that it has none for
    /// the next. A solid tile is [settled](crate::settle) by its caller, after the batch.
    ///
    /// After a batch [`incoming`](Row::incoming), [`carries`](Row::carries) and [`paint`](Row::paint) are those of its
    /// last tile. The row keeps no list of it: [`listed`](Row::listed) is empty.
    ///
    /// # Errors
    ///
    /// A tile that is turned down ends the batch before it: the row stands at this tile, and can be used on. So a call
    /// is refused only where its first tile is, by what `work` names, and leaves the row and `kept` as they were, while
    /// the batch is empty.
    pub fn work_tiles(
        &mut self,
        tiles: usize,
        frame: &Frame,
        kept: Option<&mut [CachedTile]>,
        batch: &mut Batch,
    ) -> Result<BatchEnd, Refusal> {
        let (number, [worked, _, queue, end, next]) = self.lend(tiles, frame, kept, batch);
        Refusal::judge(number).map_err(|refusal| self.refused(refusal, self.next_tile(), None))?;
        batch.worked = worked;
        if queue == 1 {
            mem::swap(&mut self.at.taken, &mut self.at.handed);
        }
        if worked > 0 {
            self.list.clear();
        }
        Ok(match end {
            0 => BatchEnd::Asked,
            1 => BatchEnd::RowEnd,
            2 => BatchEnd::NoRoom,
            _ => {
                let refusal = Refusal::judge(next as u32).expect_err("a refusal has a number");
                BatchEnd::NextRefused(self.refused(refusal, self.next_tile(), None))
            }
        })
    }

    /// The call: its answer, and how many tiles it worked, how many planes these use, which queue holds the carries, why
    /// it ended, and the next tile's refusal. That the row is judged once for all tiles is the library's affair, which
    /// is proved to answer as single calls do.
    fn lend(
        &mut self,
        tiles: usize,
        frame: &Frame,
        kept: Option<&mut [CachedTile]>,
        batch: &mut Batch,
    ) -> (u32, [usize; 5]) {
        let (layers, colors, count) = self.table().lent();
        let segments = segment::words_of(self.segments());
        let (tile, past) = (self.next_tile(), (self.next_tile() - self.tiles().start) as usize);
        let left = (self.tiles().end - tile) as usize;
        let room = batch.begin(tile, tiles.min(left), count.min(ENTRIES));
        let previous = frame.previous_clear.unwrap_or_default();
        let keeps = kept.is_some();
        let kept = kept.unwrap_or_default().get_mut(past..).unwrap_or_default();
        let mut done = [0; 5];
        let number = exports::work_tiles(
            &mut self.at.state.words,
            &mut self.at.state.counts,
            tile,
            tiles,
            segments,
            layers,
            colors,
            count,
            keeps,
            cached_tile::bytes_of(kept),
            &frame.clear.numbers(),
            frame.previous_clear.is_some(),
            &previous.numbers(),
            &mut self.at.handed.ids,
            &mut self.at.handed.covers,
            &mut self.at.taken.ids,
            &mut self.at.taken.covers,
            batch.told.as_flattened_mut(),
            batch.bottoms.as_flattened_mut(),
            plane::numbers_of(&mut batch.planes[..room]),
            batch.painted[..room].as_flattened_mut(),
            &mut done,
        );
        (number, done)
    }
}
