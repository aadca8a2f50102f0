//! What of that which was lent meets the condition of a refusal: looked for after the library's answer.

use std::{collections::BTreeMap, fmt};

use crate::Fields;

/// What of that which was lent meets the condition of a [`Refusal`](crate::Refusal). Places count from 0, in the order
/// in which things were lent; of several the first is told.
#[derive(Clone, Copy, Debug, PartialEq, Eq, Hash)]
#[non_exhaustive]
pub enum Cause {
    /// 1: so many pairs of bounds were lent for so many segments.
    FewBounds {
        /// The pairs.
        pairs: u32,
        /// The segments.
        segments: u32,
    },
    /// 1: the table's words and colours are too few for its count.
    ShortTable {
        /// How many records it counts.
        count: u32,
        /// For how many there are words and colours.
        room: u32,
    },
    /// 2: the row number.
    RowNumber {
        /// That was asked for.
        tile_y: i32,
        /// The last one that is a row's.
        last: u16,
    },
    /// 2: the range of tiles is not within 0 to 4,095, or ends before it starts.
    Range {
        /// Its start.
        start: i32,
        /// Its end.
        end: i32,
    },
    /// 2: not the next tile.
    NotNext {
        /// The tile that was asked for.
        tile: i32,
        /// The tile that is next.
        next: i32,
    },
    /// 2: the row is at its end.
    PastLast {
        /// The tile that was asked for.
        tile: i32,
        /// Where the row's tiles end.
        end: i32,
    },
    /// 2: no tile was worked or listed yet.
    NoTile,
    /// 3: a segment lies before the one that it follows, by tile x and layer.
    Descends {
        /// Its place.
        segment: u32,
    },
    /// 3: a segment has another tile y than the row.
    OtherRow {
        /// Its place.
        segment: u32,
        /// Its tile y.
        tile_y: i16,
    },
    /// 3: a segment of another layer than the set or the part.
    OtherLayer {
        /// Its place among those that were lent.
        segment: u32,
        /// Its layer.
        layer: u32,
    },
    /// 3: a segment of another tile than the set or the part.
    OtherTile {
        /// Its place among those that were lent.
        segment: u32,
        /// Its tile x.
        tile_x: i16,
        /// Its tile y.
        tile_y: i16,
    },
    /// 4: a record.
    Record {
        /// Its place.
        record: u32,
        /// Its layer id.
        layer: u32,
        /// What is wrong with it.
        fault: RecordFault,
    },
    /// 6: the tag of a cached tile.
    Tag {
        /// It is above 3.
        tag: u8,
    },
    /// 7: more layers than 256.
    Layers {
        /// How many.
        count: u32,
    },
    /// 8: a layer that the table lacks.
    Missing {
        /// Its id.
        layer: u32,
    },
    /// 9: the covers of a layer in a pixel row.
    Covers {
        /// The layer.
        layer: u32,
        /// The pixel row.
        row: u8,
        /// The sum of the absolute values, above 127.
        sum: u32,
    },
    /// 11: a field that is to be packed.
    Field {
        /// Which.
        field: Field,
        /// Its value.
        value: i64,
        /// Whether it was to be packed for tiles four pixels high.
        four_high: bool,
    },
    /// 12: the set holds no such segment.
    NotHeld {
        /// How many it holds.
        held: u32,
    },
    /// 13: there are fewer slots than segments.
    Slots {
        /// How many slots there are.
        slots: u32,
        /// How many segments are to be held.
        segments: u32,
    },
    /// 14: the bounds of a segment's cover.
    SegmentBounds {
        /// Its place.
        segment: u32,
        /// The lowest cover.
        low: i8,
        /// The highest.
        high: i8,
    },
    /// 14: the bounds of the cover from the left.
    CoverBounds {
        /// The pixel row.
        row: u8,
        /// The lowest cover.
        low: i8,
        /// The highest.
        high: i8,
    },
    /// 15: two records of a layer.
    Twins {
        /// The layer.
        layer: u32,
        /// The revision that both have.
        revision: u32,
    },
}

/// What is wrong with a layer record.
#[derive(Clone, Copy, Debug, PartialEq, Eq, Hash)]
#[non_exhaustive]
pub enum RecordFault {
    /// Its id is not above that of the record before it.
    Order,
    /// Its id is above 2,097,151.
    Id,
    /// Its fill rule is none.
    Rule,
    /// It is neither a draw nor a clip.
    Func,
    /// Its span is above 2,097,151.
    Span,
    /// Whether it is clipped is neither 0 nor 1.
    Clipped,
    /// Its fill is none.
    Fill,
    /// Its blend mode is none.
    BlendMode,
    /// Whether it is unchanged is neither 0 nor 1.
    Unchanged,
    /// It has neither properties nor is it a withdrawal.
    Kind,
}

/// A field of a packed segment.
#[derive(Clone, Copy, Debug, PartialEq, Eq, Hash)]
#[allow(missing_docs)] // the fields of `Fields`
pub enum Field {
    LayerId,
    TileX,
    TileY,
    LocalX,
    LocalY,
    DoubleAreaMultiplier,
    Cover,
}

impl Field {
    /// What a segment holds of it: the lowest and the highest.
    const fn ends(self, four_high: bool) -> (i64, i64) {
        match self {
            Field::LayerId => (0, LAST_LAYER as i64),
            Field::TileX => (-1, 4_094),
            Field::TileY => (-1, if four_high { 8_190 } else { 2_046 }),
            Field::LocalX => (0, 15),
            Field::LocalY => (0, if four_high { 3 } else { 15 }),
            Field::DoubleAreaMultiplier => (0, 63),
            Field::Cover => (-32, 31),
        }
    }

    const fn name(self) -> &'static str {
        match self {
            Field::LayerId => "the layer id",
            Field::TileX => "tile x",
            Field::TileY => "tile y",
            Field::LocalX => "local x",
            Field::LocalY => "local y",
            Field::DoubleAreaMultiplier => "the double area's multiplier",
            Field::Cover => "the cover",
        }
    }
}

impl fmt::Display for Field {
    fn fmt(&self, f: &mut fmt::Formatter<'_>) -> fmt::Result {
        f.write_str(self.name())
    }
}

impl fmt::Display for RecordFault {
    fn fmt(&self, f: &mut fmt::Formatter<'_>) -> fmt::Result {
        f.write_str(match self {
            RecordFault::Order => "its id is not above the one before",
            RecordFault::Id => "its id is above 2097151",
            RecordFault::Rule => "its fill rule is above 1",
            RecordFault::Func => "it is neither draw (0) nor clip (1)",
            RecordFault::Span => "its span is above 2097151",
            RecordFault::Clipped => "whether it is clipped is neither 0 nor 1",
            RecordFault::Fill => "its fill is above 2",
            RecordFault::BlendMode => "its blend mode is above 15",
            RecordFault::Unchanged => "whether it is unchanged is neither 0 nor 1",
            RecordFault::Kind => "its kind is neither properties (0) nor withdrawal (1)",
        })
    }
}

impl fmt::Display for Cause {
    fn fmt(&self, f: &mut fmt::Formatter<'_>) -> fmt::Result {
        match *self {
            Cause::FewBounds { pairs, segments } => {
                write!(f, "{segments} segments need as many pairs of bounds, and there are {pairs}")
            }
            Cause::ShortTable { count, room } => {
                write!(f, "the table counts {count} records, and has words and colours for {room}")
            }
            Cause::RowNumber { tile_y, last } => write!(f, "the row number is {tile_y}, and rows are 0 to {last}"),
            Cause::Range { start, end } => write!(f, "the tiles {start}..{end} are no range within 0..4095"),
            Cause::NotNext { tile, next } => write!(f, "tile {tile} was asked for, and tile {next} is the next"),
            Cause::PastLast { tile, end } => {
                write!(f, "tile {tile} was asked for, and the row's tiles end before tile {end}")
            }
            Cause::NoTile => f.write_str("no tile of the row was worked or listed yet"),
            Cause::Descends { segment } => {
                write!(f, "segment {segment} lies before the one that it follows, by tile x and layer")
            }
            Cause::OtherRow { segment, tile_y } => {
                write!(f, "segment {segment} has tile y {tile_y}, which is not the row's")
            }
            Cause::OtherLayer { segment, layer } => {
                write!(f, "segment {segment} is of layer {layer}, which is another than was named")
            }
            Cause::OtherTile { segment, tile_x, tile_y } => {
                write!(f, "segment {segment} lies in tile {tile_x}, {tile_y}, which is another than was named")
            }
            Cause::Record { record, layer, fault } => write!(f, "record {record}, of layer {layer}: {fault}"),
            Cause::Tag { tag } => write!(f, "the cached tile's tag is {tag}, and tags are 0 to 3"),
            Cause::Layers { count } => write!(f, "there are {count} layers in one place, and 256 are the most"),
            Cause::Missing { layer } => write!(f, "layer {layer} is not in the table"),
            Cause::Covers { layer, row, sum } => write!(
                f,
                "of layer {layer} in pixel row {row} the absolute covers, the incoming one included, sum to {sum}, above 127"
            ),
            Cause::Field { field, value, four_high } => {
                let (lowest, highest) = field.ends(four_high);
                write!(f, "{field} is {value}, and a segment holds {lowest} to {highest}")
            }
            Cause::NotHeld { held } => write!(f, "the set holds {held} segments, and no equal one"),
            Cause::Slots { slots, segments } => write!(f, "{segments} segments were to be held in {slots} slots"),
            Cause::SegmentBounds { segment, low, high } => {
                write!(f, "segment {segment} has the bounds {low} and {high}, which don't ascend within -32 to 31")
            }
            Cause::CoverBounds { row, low, high } => {
                write!(f, "the cover from the left has the bounds {low} and {high} in pixel row {row}, which descend")
            }
            Cause::Twins { layer, revision } => write!(f, "two records of layer {layer} have revision {revision}"),
        }
    }
}

/// The last layer id, and the last span.
const LAST_LAYER: u32 = (1 << 21) - 1;

/// A place or a number of things; one that has no place in 32 bits is told as the last.
pub(crate) fn told(number: usize) -> u32 {
    u32::try_from(number).unwrap_or(u32::MAX)
}

/// 2, at an opening: the row number or the range.
pub(crate) fn ends(tile_y: i32, start: i32, end: i32, last: u16) -> Cause {
    if (0..=i32::from(last)).contains(&tile_y) {
        Cause::Range { start, end }
    } else {
        Cause::RowNumber { tile_y, last }
    }
}

/// 2, at a tile: not the next, or past the last.
pub(crate) fn next(tile: i32, next: i32, end: i32) -> Cause {
    if tile == next {
        Cause::PastLast { tile, end }
    } else {
        Cause::NotNext { tile, next }
    }
}

/// 3, of a row: the first segment that descends or lies elsewhere.
pub(crate) fn row(segments: impl Iterator<Item = Fields>, tile_y: i32) -> Option<Cause> {
    let mut last = None;
    for (segment, one) in (0..).zip(segments) {
        if i32::from(one.tile_y) != tile_y {
            return Some(Cause::OtherRow { segment, tile_y: one.tile_y });
        }
        let key = (one.tile_x, one.layer_id);
        if last.is_some_and(|last| key < last) {
            return Some(Cause::Descends { segment });
        }
        last = Some(key);
    }
    None
}

/// 3, of a part: the first segment of another layer or tile.
pub(crate) fn part(segments: impl Iterator<Item = Fields>, layer: u32, tile: (i16, i16)) -> Option<Cause> {
    (0..).zip(segments).find_map(|(segment, one)| {
        if one.layer_id != layer {
            return Some(Cause::OtherLayer { segment, layer: one.layer_id });
        }
        let Fields { tile_x, tile_y, .. } = one;
        ((tile_x, tile_y) != tile).then_some(Cause::OtherTile { segment, tile_x, tile_y })
    })
}

/// 1 and 4, of a table: it is too short, or the first record that is none.
pub(crate) fn table(words: &[u32], colors: &[f32], count: usize) -> Option<Cause> {
    let room = (words.len() / 8).min(colors.len() / 4);
    if room < count {
        return Some(Cause::ShortTable { count: told(count), room: told(room) });
    }
    let mut last = None;
    (0..).zip(words.chunks_exact(8).take(count)).find_map(|(record, words)| {
        let layer = words[0];
        let is_above = last.replace(layer).is_none_or(|last| layer > last);
        let fault = if is_above { record_fault(words) } else { Some(RecordFault::Order) };
        fault.map(|fault| Cause::Record { record, layer, fault })
    })
}

/// What is out of its range in the words of a record.
pub(crate) fn record_fault(words: &[u32]) -> Option<RecordFault> {
    let ends = [
        (RecordFault::Id, LAST_LAYER),
        (RecordFault::Rule, 1),
        (RecordFault::Func, 1),
        (RecordFault::Span, LAST_LAYER),
        (RecordFault::Clipped, 1),
        (RecordFault::Fill, 2),
        (RecordFault::BlendMode, 15),
        (RecordFault::Unchanged, 1),
    ];
    ends.into_iter().zip(words).find(|&((_, last), &word)| word > last).map(|((fault, _), _)| fault)
}

/// 9: the first layer and pixel row whose absolute covers sum above 127, of covers from the left and of segments.
pub(crate) fn covers<'a>(
    incoming: impl Iterator<Item = (u32, &'a [i8])>,
    segments: impl Iterator<Item = (u32, u8, i8)>,
) -> Option<Cause> {
    let mut sums = BTreeMap::new();
    let mut add =
        |layer: u32, row: u8, cover: i8| *sums.entry((layer, row)).or_insert(0) += u32::from(cover.unsigned_abs());
    for (layer, covers) in incoming {
        (0..).zip(covers).for_each(|(row, &cover)| add(layer, row, cover));
    }
    segments.for_each(|(layer, row, cover)| add(layer, row, cover));
    sums.into_iter().find(|&(_, sum)| sum > 127).map(|((layer, row), sum)| Cause::Covers { layer, row, sum })
}

/// 9, of one layer's segments in a tile, whatever layers they name.
pub(crate) fn part_covers(covers_in: &[i8], segments: impl Iterator<Item = Fields>) -> Option<Cause> {
    let segments: Vec<Fields> = segments.collect();
    let layer = segments.first().map_or(0, |one| one.layer_id);
    covers([(layer, covers_in)].into_iter(), segments.iter().map(|one| (layer, one.local_y, one.cover)))
}

/// 11: the first field that is out of its range.
pub(crate) fn field(fields: Fields, four_high: bool) -> Option<Cause> {
    let Fields { layer_id, tile_x, tile_y, local_x, local_y, double_area_multiplier, cover } = fields;
    let values = [
        (Field::LayerId, layer_id.into()),
        (Field::TileX, tile_x.into()),
        (Field::TileY, tile_y.into()),
        (Field::LocalX, local_x.into()),
        (Field::LocalY, local_y.into()),
        (Field::DoubleAreaMultiplier, double_area_multiplier.into()),
        (Field::Cover, cover.into()),
    ];
    let is_out = |&(field, value): &(Field, i64)| {
        let (lowest, highest) = field.ends(four_high);
        !(lowest..=highest).contains(&value)
    };
    values.into_iter().find(is_out).map(|(field, value)| Cause::Field { field, value, four_high })
}
