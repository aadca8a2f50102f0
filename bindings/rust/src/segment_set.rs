//! Kept sets of segments: one layer in one tile, changed a segment at a time.

use std::fmt;

use crate::{
    cause::{self, told},
    exports, plane, segment, Cause, Condition, Cover, FillRule, PixelSegment, Refusal,
};

/// The segments of one layer in one tile, with the doubled area of each pixel and the carry: what an editor keeps while
/// an author drags an outline. After each edit all of it is what working the set out anew would give; an edit writes
/// only the segment's pixel row, from its column rightward.
///
/// The set has room for as many segments as it was begun with slots for; [`add_slots`](SegmentSet::add_slots) gives it
/// more. An edit that is turned down leaves it as it was.
///
/// Order within a set carries no meaning: two sets are equal that hold the same segments, each as often, from the same
/// cover, in the same layer and tile, and have room for as many.
#[derive(Clone)]
pub struct SegmentSet {
    layer: u32,
    tile: [i16; 2],
    carry: Cover,
    loads: [u16; 16],
    count: usize,
    slots: Vec<u64>,
    areas: Box<[i16; 256]>,
}

impl PartialEq for SegmentSet {
    fn eq(&self, other: &SegmentSet) -> bool {
        let numbers = |set: &SegmentSet| (set.layer, set.tile, set.carry, set.loads, set.count, set.slots.len());
        numbers(self) == numbers(other) && self.areas == other.areas && self.sorted_words() == other.sorted_words()
    }
}

impl Eq for SegmentSet {}

impl SegmentSet {
    /// Begins a set of a layer in a tile from its cover from the left and its segments so far, none or some, in so many
    /// slots.
    ///
    /// # Errors
    ///
    /// Refused by 3 (a segment of another layer or tile), 9 (the covers of a pixel row) and 13 (fewer slots than
    /// segments).
    pub fn begin(
        layer_id: u32,
        tile_x: i16,
        tile_y: i16,
        cover: &Cover,
        part: &[PixelSegment],
        slots: usize,
    ) -> Result<SegmentSet, Refusal> {
        let mut set = SegmentSet {
            layer: 0,
            tile: [0; 2],
            carry: Cover::default(),
            loads: [0; 16],
            count: 0,
            slots: vec![0; slots],
            areas: Box::new([0; 256]),
        };
        Refusal::judge(exports::begin_set(
            layer_id,
            tile_x,
            tile_y,
            &cover.0,
            segment::words_of(part),
            &mut set.layer,
            &mut set.tile,
            &mut set.carry.0,
            &mut set.loads,
            &mut set.count,
            &mut set.slots,
            set.areas.as_mut_slice(),
        ))
        .map_err(|refusal| {
            let fields = || part.iter().map(|one| one.fields());
            let covers = || fields().map(|one| (layer_id, one.local_y, one.cover));
            refusal.found(|condition| match condition {
                Condition::Row => cause::part(fields(), layer_id, (tile_x, tile_y)),
                Condition::Covers => cause::covers([(layer_id, &cover.0[..])].into_iter(), covers()),
                Condition::Slots => Some(Cause::Slots { slots: told(slots), segments: told(part.len()) }),
                _ => None,
            })
        })?;
        Ok(set)
    }

    /// Takes a segment in; the same one may be held several times.
    ///
    /// # Errors
    ///
    /// Refused by 3 (another layer or tile), 9 (the covers of its pixel row) and 13 (every slot is held).
    pub fn take_in(&mut self, segment: PixelSegment) -> Result<(), Refusal> {
        Refusal::judge(exports::take_in(
            segment.word(),
            &self.layer,
            &self.tile,
            &mut self.carry.0,
            &mut self.loads,
            &mut self.count,
            &mut self.slots,
            self.areas.as_mut_slice(),
        ))
        .map_err(|refusal| self.refused(refusal, segment))
    }

    /// Lets one equal segment out.
    ///
    /// # Errors
    ///
    /// Refused by 3 (another layer or tile) and 12 (none is held).
    pub fn let_out(&mut self, segment: PixelSegment) -> Result<(), Refusal> {
        Refusal::judge(exports::let_out(
            segment.word(),
            &self.layer,
            &self.tile,
            &mut self.carry.0,
            &mut self.loads,
            &mut self.count,
            &mut self.slots,
            self.areas.as_mut_slice(),
        ))
        .map_err(|refusal| self.refused(refusal, segment))
    }

    /// Why an edit with this segment was turned down.
    fn refused(&self, refusal: Refusal, segment: PixelSegment) -> Refusal {
        let row = segment.local_y();
        refusal.found(|condition| match condition {
            Condition::Row => cause::part([segment.fields()].into_iter(), self.layer, self.tile()),
            Condition::Covers => {
                let sum = u32::from(self.loads[usize::from(row)]) + u32::from(segment.cover().unsigned_abs());
                Some(Cause::Covers { layer: self.layer, row, sum })
            }
            Condition::NotHeld => Some(Cause::NotHeld { held: told(self.count) }),
            Condition::Slots => Some(Cause::Slots { slots: told(self.slots()), segments: told(self.count + 1) }),
            _ => None,
        })
    }

    /// The layer whose segments it holds.
    #[must_use]
    pub fn layer_id(&self) -> u32 {
        self.layer
    }

    /// The tile, by its column and its row.
    #[must_use]
    pub fn tile(&self) -> (i16, i16) {
        (self.tile[0], self.tile[1])
    }

    /// The held segments, in no order that means anything.
    #[must_use]
    pub fn segments(&self) -> &[PixelSegment] {
        segment::segments_of(&self.slots[..self.count])
    }

    /// How many segments it holds.
    #[must_use]
    pub fn len(&self) -> usize {
        self.count
    }

    /// Whether it holds none.
    #[must_use]
    pub fn is_empty(&self) -> bool {
        self.count == 0
    }

    /// Whether it holds such a segment, at least once.
    #[must_use]
    pub fn contains(&self, segment: PixelSegment) -> bool {
        self.segments().contains(&segment)
    }

    fn sorted_words(&self) -> Vec<u64> {
        let mut words = self.slots[..self.count].to_vec();
        words.sort_unstable();
        words
    }

    /// How many segments it has room for.
    #[must_use]
    pub fn slots(&self) -> usize {
        self.slots.len()
    }

    /// Gives it room for so many segments more.
    pub fn add_slots(&mut self, more: usize) {
        self.slots.resize(self.slots.len() + more, 0);
    }

    /// The cover that the tile hands on of the layer; it is never dropped here.
    #[must_use]
    pub fn carry(&self) -> Cover {
        self.carry
    }

    /// The doubled area that a pixel sees.
    ///
    /// # Panics
    ///
    /// Where the column or the row is above 15.
    #[must_use]
    pub fn doubled_area(&self, column: usize, row: usize) -> i16 {
        assert!(column < 16 && row < 16, "column {column}, row {row}");
        self.areas[column * 16 + row]
    }

    /// The coverage of a pixel.
    ///
    /// # Panics
    ///
    /// Where the column or the row is above 15.
    #[must_use]
    pub fn coverage(&self, column: usize, row: usize, rule: FillRule) -> f32 {
        plane::doubled_area_to_coverage(self.doubled_area(column, row), rule)
    }
}

/// All but the doubled areas, which follow.
impl fmt::Debug for SegmentSet {
    fn fmt(&self, f: &mut fmt::Formatter<'_>) -> fmt::Result {
        f.debug_struct("SegmentSet")
            .field("layer_id", &self.layer)
            .field("tile", &self.tile())
            .field("carry", &self.carry)
            .field("segments", &self.segments())
            .field("slots", &self.slots())
            .finish_non_exhaustive()
    }
}
