//! The rows of a plate, and all of them worked, in order or on several threads.

use std::{
    error::Error,
    fmt,
    num::NonZeroUsize,
    ops::Range,
    sync::{
        atomic::{AtomicBool, Ordering},
        Mutex, PoisonError,
    },
    thread,
};

use crate::{exports, segment, Batch, BatchTile, Cause, Frame, LayerTable, PixelSegment, Refusal, Row};

/// The number of a row of tiles, 0 to 2,046.
///
/// ```
/// use tile_rows::RowNumber;
///
/// let row = RowNumber::try_from(7usize)?;
/// assert_eq!((row.get(), row.index(), i32::from(row)), (7, 7, 7));
/// assert!(RowNumber::try_from(65_536).is_err() && RowNumber::try_from(-1).is_err());
/// # Ok::<(), tile_rows::Refusal>(())
/// ```
#[derive(Clone, Copy, Debug, Default, PartialEq, Eq, PartialOrd, Ord, Hash)]
pub struct RowNumber(u16);

impl RowNumber {
    /// The last row.
    pub const LAST: RowNumber = RowNumber(2_046);

    /// The number.
    #[must_use]
    pub const fn get(self) -> u16 {
        self.0
    }

    /// The number, as a place in a slice.
    #[must_use]
    pub const fn index(self) -> usize {
        self.0 as usize
    }
}

impl fmt::Display for RowNumber {
    fn fmt(&self, f: &mut fmt::Formatter<'_>) -> fmt::Result {
        self.0.fmt(f)
    }
}

impl From<RowNumber> for i32 {
    fn from(row: RowNumber) -> i32 {
        row.0.into()
    }
}

impl From<RowNumber> for usize {
    fn from(row: RowNumber) -> usize {
        row.0.into()
    }
}

impl From<RowNumber> for i16 {
    fn from(row: RowNumber) -> i16 {
        row.0 as i16 // at most 2,046
    }
}

macro_rules! row_numbers {
    ($($number:ty)*) => {$(
        /// Refused by 2 where it is not 0 to 2,046.
        impl TryFrom<$number> for RowNumber {
            type Error = Refusal;

            fn try_from(number: $number) -> Result<RowNumber, Refusal> {
                let row = u16::try_from(number).ok().filter(|&row| row <= RowNumber::LAST.0).map(RowNumber);
                row.ok_or_else(|| Refusal::Tile.found(|_| {
                    let tile_y = i32::try_from(number).unwrap_or(i32::MAX);
                    Some(Cause::RowNumber { tile_y, last: RowNumber::LAST.0 })
                }))
            }
        }
    )*};
}

row_numbers!(i16 u16 i32 u32 i64 u64 usize);

/// All segments of a plate, in order, without those above its first row.
#[derive(Clone, Copy, Debug)]
pub struct Plate<'a> {
    segments: &'a [PixelSegment],
}

/// How many rows and tiles a plate has, and the crop where not all of them are wanted.
#[derive(Clone, Debug, Default, PartialEq, Eq)]
pub struct Area {
    /// How many rows there are, from row 0 on.
    pub rows: usize,
    /// How many tiles a row has, from tile 0 on.
    pub tiles: i32,
    /// The rows and tiles that are worked; without a crop all of them.
    pub crop: Option<Crop>,
}

/// Rows and tiles of a plate. Those that the plate lacks are left out.
#[derive(Clone, Debug, Default, PartialEq, Eq)]
pub struct Crop {
    /// The rows.
    pub rows: Range<usize>,
    /// The tiles of each.
    pub tiles: Range<i32>,
}

/// A row that was turned down, at its opening or at a tile.
#[derive(Clone, Copy, Debug, PartialEq, Eq)]
pub struct RowRefusal {
    /// The row.
    pub row: RowNumber,
    /// Why.
    pub refusal: Refusal,
}

impl fmt::Display for RowRefusal {
    fn fmt(&self, f: &mut fmt::Formatter<'_>) -> fmt::Result {
        write!(f, "row {}: {}", self.row, self.refusal)
    }
}

impl Error for RowRefusal {}

impl From<RowRefusal> for Refusal {
    fn from(refused: RowRefusal) -> Refusal {
        refused.refusal
    }
}

impl Area {
    /// All of so many rows and tiles.
    #[must_use]
    pub const fn new(rows: usize, tiles: i32) -> Area {
        Area { rows, tiles, crop: None }
    }

    /// The same plate, of which these rows and tiles are worked.
    #[must_use]
    pub fn cropped(self, rows: Range<usize>, tiles: Range<i32>) -> Area {
        Area { crop: Some(Crop { rows, tiles }), ..self }
    }

    /// The rows that are worked, ascending; of a plate of more than 2,047 rows, those that have numbers.
    pub fn row_numbers(&self) -> impl Iterator<Item = RowNumber> + '_ {
        let rows = (0..=RowNumber::LAST.0).map(RowNumber).take(self.rows);
        rows.filter(|row| is_in_crop(self.crop.as_ref().map(|crop| crop.rows.clone()), row.index()))
    }

    /// The tiles that are worked of each row. A crop that has none of them is empty.
    #[must_use]
    pub fn worked_tiles(&self) -> Range<i32> {
        let Some(Crop { tiles, .. }) = &self.crop else { return 0..self.tiles };
        let end = tiles.end.min(self.tiles).max(0);
        tiles.start.clamp(0, end)..end
    }
}

impl<'a> Plate<'a> {
    /// The plate of ascending segments. On others the painter's searches decide which segments a row gets; opening such
    /// a row is then refused by 3.
    #[must_use]
    pub fn new(segments: &'a [PixelSegment]) -> Plate<'a> {
        let start = exports::find_not_negative(segment::words_of(segments));
        Plate { segments: &segments[start..] }
    }

    /// Its segments.
    #[must_use]
    pub fn segments(&self) -> &'a [PixelSegment] {
        self.segments
    }

    /// The segments of row `j`. A number that is no row's has none.
    #[must_use]
    pub fn row(&self, j: usize) -> &'a [PixelSegment] {
        if RowNumber::try_from(j).is_err() {
            return &[]; // the painter cuts the number to 16 bits: 65,536 would give row 0
        }
        let mut end = 0;
        let start = exports::find_row(segment::words_of(self.segments), j, &mut end);
        &self.segments[start..end]
    }

    /// The rows that have segments, ascending.
    pub fn rows(&self) -> impl Iterator<Item = RowNumber> + 'a {
        let mut left = self.segments;
        std::iter::from_fn(move || {
            let row = RowNumber::try_from(left.first()?.tile_y()).ok()?;
            let next = left.iter().position(|segment| i32::from(segment.tile_y()) > i32::from(row));
            left = &left[next.unwrap_or(left.len())..];
            Some(row)
        })
    }

    /// Opens a row of it: [`Row::open`] with the row's segments.
    ///
    /// # Errors
    ///
    /// As [`Row::open`].
    pub fn open_row(&self, row: RowNumber, table: &'a LayerTable, tiles: Range<i32>) -> Result<Row<'a>, Refusal> {
        Row::open(self.row(row.index()), table, row, tiles)
    }

    /// Works and paints the area in order, row after row and tile after tile, without cached tiles. Each tile with its
    /// decision and coverages goes to the sink; rows without segments too, since a tile without layers is filled with
    /// the clear colour.
    ///
    /// ```
    /// use tile_rows::{Area, Color, Frame, LayerTable, Plate};
    ///
    /// let frame = Frame { clear: Color::opaque(1.0, 1.0, 1.0), previous_clear: None };
    /// let mut tiles = Vec::new();
    /// let area = Area::new(3, 4).cropped(1..3, 2..9);
    /// Plate::new(&[]).work(&LayerTable::new(&[]), &area, &frame, |row, tile| tiles.push((row.get(), tile.tile)))?;
    /// assert_eq!(tiles, [(1, 2), (1, 3), (2, 2), (2, 3)]);
    /// # Ok::<(), tile_rows::RowRefusal>(())
    /// ```
    ///
    /// # Errors
    ///
    /// As [`Row::open`] and [`Row::work_tiles`], at the first row that is turned down. The tiles before went to the sink.
    pub fn work(
        &self,
        table: &LayerTable,
        area: &Area,
        frame: &Frame,
        mut sink: impl FnMut(RowNumber, BatchTile<'_>),
    ) -> Result<(), RowRefusal> {
        let (mut batch, tiles) = (Batch::new(), area.worked_tiles());
        let mut rows = area.row_numbers();
        rows.try_for_each(|row| self.work_row(row, table, tiles.clone(), frame, &mut batch, &mut sink))
    }

    /// The same on so many threads: each works the next row that nobody has. The sink is called by all of them at once,
    /// with the tiles of one row in order.
    ///
    /// # Errors
    ///
    /// As [`work`](Plate::work): of the first row that is turned down, whatever the threads did. Rows after it may have
    /// been worked, wholly or in part.
    pub fn work_on(
        &self,
        threads: NonZeroUsize,
        table: &LayerTable,
        area: &Area,
        frame: &Frame,
        sink: impl Fn(RowNumber, BatchTile<'_>) + Sync,
    ) -> Result<(), RowRefusal> {
        let (rows, is_refused, tiles) = (Mutex::new(area.row_numbers()), AtomicBool::new(false), area.worked_tiles());
        // Rows are handed out in order, so that all before one that is refused have been, and are worked to their ends.
        let next = || rows.lock().unwrap_or_else(PoisonError::into_inner).next();
        let work = || {
            let mut batch = Batch::new();
            while let Some(row) = next().filter(|_| !is_refused.load(Ordering::Relaxed)) {
                let worked =
                    self.work_row(row, table, tiles.clone(), frame, &mut batch, &mut |row, tile| sink(row, tile));
                if worked.is_err() {
                    is_refused.store(true, Ordering::Relaxed);
                    return worked;
                }
            }
            Ok(())
        };
        let results = thread::scope(|scope| {
            let workers: Vec<_> = (0..threads.get()).map(|_| scope.spawn(work)).collect();
            workers
                .into_iter()
                .map(|worker| worker.join().unwrap_or_else(|panic| std::panic::resume_unwind(panic)))
                .collect::<Vec<_>>()
        });
        results.into_iter().filter_map(Result::err).min_by_key(|refused| refused.row).map_or(Ok(()), Err)
    }

    fn work_row(
        &self,
        row: RowNumber,
        table: &LayerTable,
        tiles: Range<i32>,
        frame: &Frame,
        batch: &mut Batch,
        sink: &mut impl FnMut(RowNumber, BatchTile<'_>),
    ) -> Result<(), RowRefusal> {
        let refused = |refusal| RowRefusal { row, refusal };
        let mut open = Row::open(self.row(row.index()), table, row, tiles).map_err(refused)?;
        while open.next_tile() < open.tiles().end {
            let _ = open.work_tiles(usize::MAX, frame, None, batch).map_err(refused)?;
            batch.tiles().for_each(|tile| sink(row, tile));
        }
        Ok(())
    }
}

/// Whether row `j` is within a crop; without one every row is.
#[must_use]
pub fn is_in_crop(crop: Option<Range<usize>>, j: usize) -> bool {
    let given = crop.is_some();
    let Range { start, end } = crop.unwrap_or(0..0);
    exports::is_in_crop(given, start, end, j)
}
