//! The proved library: each export as a function that lends slices and tells what the call left.

use std::ops::Range;

use reference::plain::{Cached, Rgba};

use crate::{
    exports,
    given::{Canvas, Fields, Key, LentTable, Memory, Queue, State, Work},
};

/// What a refused call must leave as it was.
pub const UNTOUCHED: u64 = 0xA5A5_5A5A_DEAD_BEEF;

/// The refusal's number and what the lent word then holds.
#[inline]
pub fn pack(fields: Fields) -> (u32, u64) {
    let Fields { layer_id, tile_x, tile_y, local_x, local_y, double_area_multiplier, cover } = fields;
    let mut word = UNTOUCHED;
    let number = unsafe {
        exports::ffi_pack(layer_id, tile_x, tile_y, local_x, local_y, double_area_multiplier, cover, &mut word)
    };
    (number, word)
}

/// Every field that has a reader, as whole numbers: layer id, tile x, tile y, local x, local y, multiplier, double
/// area, cover.
pub fn fields(word: u64) -> [i64; 8] {
    unsafe {
        [
            exports::ffi_layer_id(word).into(),
            exports::ffi_tile_x(word).into(),
            exports::ffi_tile_y(word).into(),
            exports::ffi_local_x(word).into(),
            exports::ffi_local_y(word).into(),
            exports::ffi_double_area_multiplier(word).into(),
            exports::ffi_double_area(word).into(),
            exports::ffi_cover(word).into(),
        ]
    }
}

/// 0, 1 or 2: less, equal, greater.
pub fn cmp(word: u64, other: u64) -> u8 {
    unsafe { exports::ffi_cmp(word, other) }
}

#[inline]
pub fn does_ascend(row: &[u64]) -> bool {
    unsafe { exports::ffi_does_ascend(row.as_ptr(), row.len()) }
}

#[inline]
pub fn is_row(row: &[u64], stored_tile_y: u64) -> bool {
    unsafe { exports::ffi_is_row(row.as_ptr(), row.len(), stored_tile_y) }
}

/// Always inlined: with a key that is known where it is called, one call is timed, as on the Rust's side.
#[inline(always)]
pub fn search_last_by_key(segments: &[u64], key: Key) -> Result<usize, usize> {
    let (start, len) = (segments.as_ptr(), segments.len());
    let mut place = 0;
    let found = unsafe {
        match key {
            Key::TileY(tile_y) => exports::ffi_search_last_by_tile_y(start, len, tile_y, &mut place),
            Key::TileX(tile_x) => exports::ffi_search_last_by_tile_x(start, len, tile_x, &mut place),
            Key::LayerId(layer_id) => exports::ffi_search_last_by_layer_id(start, len, layer_id, &mut place),
            Key::TileXAtLeast(first, wanted) => {
                exports::ffi_search_last_by_tile_x_at_least(start, len, first, wanted, &mut place)
            }
            Key::TileYNotNegative(wanted) => {
                exports::ffi_search_last_by_tile_y_not_negative(start, len, wanted, &mut place)
            }
            Key::LayerIdAtLeast(..) => panic!("a key that is not exported at 16"),
        }
    };
    if found {
        Ok(place)
    } else {
        Err(place)
    }
}

/// Tiles four pixels high: as `pack`.
pub fn gpu_pack(fields: Fields) -> (u32, u64) {
    let Fields { layer_id, tile_x, tile_y, local_x, local_y, double_area_multiplier, cover } = fields;
    let mut word = UNTOUCHED;
    let number = unsafe {
        exports::ffi_gpu_pack(layer_id, tile_x, tile_y, local_x, local_y, double_area_multiplier, cover, &mut word)
    };
    (number, word)
}

/// As `fields`.
pub fn gpu_fields(word: u64) -> [i64; 8] {
    unsafe {
        [
            exports::ffi_gpu_layer_id(word).into(),
            exports::ffi_gpu_tile_x(word).into(),
            exports::ffi_gpu_tile_y(word).into(),
            exports::ffi_gpu_local_x(word).into(),
            exports::ffi_gpu_local_y(word).into(),
            exports::ffi_gpu_double_area_multiplier(word).into(),
            exports::ffi_gpu_double_area(word).into(),
            exports::ffi_gpu_cover(word).into(),
        ]
    }
}

/// The same in one call.
pub fn gpu_fields_at_once(word: u64) -> [i64; 8] {
    let (mut layer_id, mut tiles, mut locals, mut multiplier) = (7, [7; 2], [7; 2], 7);
    let ([tile_x, tile_y], [local_x, local_y]) = (&mut tiles, &mut locals);
    let (mut double_area, mut cover) = (7, 7);
    unsafe {
        exports::ffi_gpu_fields(
            word,
            &mut layer_id,
            tile_x,
            tile_y,
            local_x,
            local_y,
            &mut multiplier,
            &mut double_area,
            &mut cover,
        );
    }
    let ([tile_x, tile_y], [local_x, local_y]) = (tiles, locals);
    [
        layer_id.into(),
        tile_x.into(),
        tile_y.into(),
        local_x.into(),
        local_y.into(),
        multiplier.into(),
        double_area.into(),
        cover.into(),
    ]
}

/// As `cmp`.
pub fn gpu_cmp(word: u64, other: u64) -> u8 {
    unsafe { exports::ffi_gpu_cmp(word, other) }
}

/// As `search_last_by_key`.
pub fn gpu_search_last_by_key(segments: &[u64], key: Key) -> Result<usize, usize> {
    let (start, len) = (segments.as_ptr(), segments.len());
    let mut place = 0;
    let found = unsafe {
        match key {
            Key::TileY(tile_y) => exports::ffi_gpu_search_last_by_tile_y(start, len, tile_y, &mut place),
            Key::TileX(tile_x) => exports::ffi_gpu_search_last_by_tile_x(start, len, tile_x, &mut place),
            Key::LayerId(layer_id) => exports::ffi_gpu_search_last_by_layer_id(start, len, layer_id, &mut place),
            Key::TileXAtLeast(first, wanted) => {
                exports::ffi_gpu_search_last_by_tile_x_at_least(start, len, first, wanted, &mut place)
            }
            Key::TileYNotNegative(wanted) => {
                exports::ffi_gpu_search_last_by_tile_y_not_negative(start, len, wanted, &mut place)
            }
            Key::LayerIdAtLeast(first, wanted) => {
                exports::ffi_gpu_search_last_by_layer_id_at_least(start, len, first, wanted, &mut place)
            }
        }
    };
    if found {
        Ok(place)
    } else {
        Err(place)
    }
}

/// As `carry`.
pub fn gpu_carry(part: &[u64], mut cover: [i8; 4]) -> (u32, [i8; 4]) {
    let number = unsafe { exports::ffi_gpu_carry(part.as_ptr(), part.len(), &mut cover) };
    (number, cover)
}

/// As `paint_part`, without a mark.
pub fn gpu_paint_part(part: &[u64], cover: [i8; 4], rule: u32, plane: &mut [f32]) -> u32 {
    unsafe { exports::ffi_gpu_paint_part(part.as_ptr(), part.len(), &cover, rule, plane.as_mut_ptr(), plane.len()) }
}

/// Where the segments start that have no negative tile y.
pub fn find_not_negative(segments: &[u64]) -> usize {
    unsafe { exports::ffi_find_not_negative(segments.as_ptr(), segments.len()) }
}

/// Where row j stands.
pub fn find_row(segments: &[u64], j: usize) -> Range<usize> {
    let mut end = 0;
    let start = unsafe { exports::ffi_find_row(segments.as_ptr(), segments.len(), j, &mut end) };
    start..end
}

/// Where no crop is given, the numbers passed leave no row.
pub fn is_in_crop(crop: Option<(usize, usize)>, j: usize) -> bool {
    let (start, end) = crop.unwrap_or((0, 0));
    unsafe { exports::ffi_is_in_crop(crop.is_some(), start, end, j) }
}

pub fn is_empty(cover: [i8; 16], rule: u32) -> bool {
    unsafe { exports::ffi_is_empty(&cover, rule) }
}

pub fn is_full(cover: [i8; 16], rule: u32) -> bool {
    unsafe { exports::ffi_is_full(&cover, rule) }
}

/// The refusal's number and what the lent cover then holds.
pub fn carry(part: &[u64], mut cover: [i8; 16]) -> (u32, [i8; 16]) {
    let number = unsafe { exports::ffi_carry(part.as_ptr(), part.len(), &mut cover) };
    (number, cover)
}

/// The bits of a coverage.
pub fn doubled_area_to_coverage(d: i16, rule: u32) -> u32 {
    unsafe { exports::ffi_doubled_area_to_coverage(d, rule) }.to_bits()
}

/// The refusal's number and what the lent mark then holds; the coverages in `plane`.
pub fn paint_part(part: &[u64], cover: [i8; 16], rule: u32, plane: &mut [f32]) -> (u32, u32) {
    let mut mark = UNTOUCHED as u32;
    let number = unsafe {
        exports::ffi_paint_part(part.as_ptr(), part.len(), &cover, rule, plane.as_mut_ptr(), plane.len(), &mut mark)
    };
    (number, mark)
}

/// The refusal's number and what the lent mark then holds.
pub fn mark_plane(plane: &[f32]) -> (u32, u32) {
    let mut mark = UNTOUCHED as u32;
    let number = unsafe { exports::ffi_mark_plane(plane.as_ptr(), plane.len(), &mut mark) };
    (number, mark)
}

pub fn octets(mark: u32) -> u32 {
    unsafe { exports::ffi_octets(mark) }
}

pub fn color_eq(color: Rgba, other: Rgba) -> bool {
    unsafe { exports::ffi_color_eq(&color, &other) }
}

pub fn is_opaque(fill: u32, blend_mode: u32, color: Rgba) -> bool {
    unsafe { exports::ffi_is_opaque(fill, blend_mode, &color) }
}

pub fn blend_mode(code: u32) -> u32 {
    unsafe { exports::ffi_blend_mode(code) }
}

/// Whether the table is shorter than its count, and whether no refusal applies to it.
pub fn judge_table(layers: &[u32], colors: &[f32], count: usize) -> (bool, bool) {
    unsafe {
        let is_short = exports::ffi_is_short(layers.as_ptr(), layers.len(), colors.as_ptr(), colors.len(), count);
        (is_short, exports::ffi_is_table(layers.as_ptr(), layers.len(), colors.as_ptr(), colors.len(), count))
    }
}

/// A part with two bytes a segment and the carry's bounds, and how long the six lent planes are.
#[derive(Clone, Debug)]
pub struct BoundsCall {
    pub layer_id: u32,
    pub tile_x: i16,
    pub tile_y: i16,
    pub part: Vec<u64>,
    pub bounds: Vec<i8>,
    pub low: [i8; 16],
    pub high: [i8; 16],
    pub lens: [usize; 6],
}

/// Lowest and highest d; least and greatest weight by NonZero, and by EvenOdd.
#[derive(Clone, Debug, PartialEq, Eq)]
pub struct Bounded {
    pub areas: [Vec<i16>; 2],
    pub weights: [Vec<u16>; 4],
}

impl Bounded {
    /// What is lent to a call: no number twice in a plane.
    pub fn untouched(lens: &[usize; 6]) -> Self {
        let areas = std::array::from_fn(|i| (0..lens[i]).map(|k| -20_000 - k as i16).collect());
        let weights = std::array::from_fn(|i| (0..lens[i + 2]).map(|k| 20_000 + k as u16).collect());
        Self { areas, weights }
    }
}

/// The refusal's number and what the planes then hold.
pub fn bound_part(call: &BoundsCall) -> (u32, Bounded) {
    let mut planes = Bounded::untouched(&call.lens);
    let Bounded { areas: [lowest, highest], weights: [least_n, greatest_n, least_e, greatest_e] } = &mut planes;
    let number = unsafe {
        exports::ffi_bound_part(
            call.layer_id,
            call.tile_x,
            call.tile_y,
            call.part.as_ptr(),
            call.part.len(),
            call.bounds.as_ptr(),
            call.bounds.len(),
            &call.low,
            &call.high,
            lowest.as_mut_ptr(),
            lowest.len(),
            highest.as_mut_ptr(),
            highest.len(),
            least_n.as_mut_ptr(),
            least_n.len(),
            greatest_n.as_mut_ptr(),
            greatest_n.len(),
            least_e.as_mut_ptr(),
            least_e.len(),
            greatest_e.as_mut_ptr(),
            greatest_e.len(),
        )
    };
    (number, planes)
}

/// The number of the refusal; the table holds what the call left, and its count how many layers stand.
pub fn stand(records: &[u32], record_colors: &[f32], table: &mut LentTable) -> u32 {
    unsafe {
        exports::ffi_stand(
            records.as_ptr(),
            records.len(),
            record_colors.as_ptr(),
            record_colors.len(),
            table.layers.as_mut_ptr(),
            table.layers.len(),
            table.colors.as_mut_ptr(),
            table.colors.len(),
            &mut table.count,
        )
    }
}

/// A count that the tile keeps. Where it keeps none, the lent number stays.
pub fn layer_count(tile: Cached) -> Option<u32> {
    let mut count = UNTOUCHED as u32;
    let given = unsafe { exports::ffi_layer_count(&tile.0, &mut count) };
    told(given, count, UNTOUCHED as u32)
}

pub fn solid_color(tile: Cached) -> Option<[u8; 4]> {
    let mut color = UNTOUCHED_COLOR;
    let given = unsafe { exports::ffi_solid_color(&tile.0, &mut color) };
    told(given, color, UNTOUCHED_COLOR)
}

pub fn update_layer_count(tile: &mut Cached, count: Option<u32>) -> Option<u32> {
    let mut previous = UNTOUCHED as u32;
    let given =
        unsafe { exports::ffi_update_layer_count(&mut tile.0, count.is_some(), count.unwrap_or(7), &mut previous) };
    told(given, previous, UNTOUCHED as u32)
}

pub fn update_solid_color(tile: &mut Cached, color: Option<[u8; 4]>) -> Option<[u8; 4]> {
    let mut previous = UNTOUCHED_COLOR;
    let given = unsafe {
        exports::ffi_update_solid_color(&mut tile.0, color.is_some(), &color.unwrap_or([7; 4]), &mut previous)
    };
    told(given, previous, UNTOUCHED_COLOR)
}

/// Whether the bytes are to be written, or the refusal's number.
pub fn settle(given: bool, tile: &mut Cached, color: [u8; 4]) -> Result<bool, u32> {
    let untouched = color[0].is_multiple_of(2);
    let mut is_written = untouched;
    let number = unsafe { exports::ffi_settle(given, &mut tile.0, &color, &mut is_written) };
    if number == 0 {
        return Ok(is_written);
    }
    assert_eq!(is_written, untouched, "a refusal writes nothing");
    Err(number)
}

const UNTOUCHED_COLOR: [u8; 4] = [0xA5, 0x5A, 0xDE, 0xAD];

fn told<T: PartialEq>(given: bool, value: T, untouched: T) -> Option<T> {
    assert!(given || value == untouched, "what is not given is not written");
    given.then_some(value)
}

/// The number of the refusal; the queue and the state hold what the call left.
pub fn open_tile_row(
    tile_y: i32,
    from: i32,
    to: i32,
    row: &[u64],
    table: &LentTable,
    queue: &mut Queue,
    state: &mut State,
) -> u32 {
    unsafe {
        exports::ffi_open_tile_row(
            tile_y,
            from,
            to,
            row.as_ptr(),
            row.len(),
            table.layers.as_ptr(),
            table.layers.len(),
            table.colors.as_ptr(),
            table.colors.len(),
            table.count,
            queue.ids.as_mut_ptr(),
            queue.ids.len(),
            queue.covers.as_mut_ptr(),
            queue.covers.len(),
            &mut state.words,
            &mut state.counts,
        )
    }
}

/// The number of the refusal; the memory holds what the call left.
pub fn work_tile(work: &Work, memory: &mut Memory) -> u32 {
    let Work { tile, row, table, is_kept, clear, previous, queue } = work;
    let Memory { state, kept, next, list, flags, shown, told, bottom } = memory;
    let mut color = bottom.map(f32::from_bits);
    let number = unsafe {
        exports::ffi_work_tile(
            &mut state.words,
            &mut state.counts,
            *tile,
            row.as_ptr(),
            row.len(),
            table.layers.as_ptr(),
            table.layers.len(),
            table.colors.as_ptr(),
            table.colors.len(),
            table.count,
            *is_kept,
            kept,
            clear,
            previous.is_some(),
            &previous.unwrap_or([7.0; 4]),
            queue.ids.as_ptr(),
            queue.ids.len(),
            queue.covers.as_ptr(),
            queue.covers.len(),
            next.ids.as_mut_ptr(),
            next.ids.len(),
            next.covers.as_mut_ptr(),
            next.covers.len(),
            list.ids.as_mut_ptr(),
            list.ids.len(),
            list.covers.as_mut_ptr(),
            list.covers.len(),
            flags.as_mut_ptr(),
            flags.len(),
            shown.as_mut_ptr(),
            shown.len(),
            told,
            &mut color,
        )
    };
    *bottom = color.map(f32::to_bits);
    number
}

/// The number of the refusal; the canvas holds what the call left. Of the work only tile, row, table and queue are
/// read.
pub fn paint_layer(work: &Work, layer: u32, canvas: &mut Canvas) -> u32 {
    let Work { tile, row, table, queue, .. } = work;
    let Canvas { state, plane, mark } = canvas;
    unsafe {
        exports::ffi_paint_layer(
            &mut state.words,
            &mut state.counts,
            *tile,
            layer,
            row.as_ptr(),
            row.len(),
            table.layers.as_ptr(),
            table.layers.len(),
            table.colors.as_ptr(),
            table.colors.len(),
            table.count,
            queue.ids.as_ptr(),
            queue.ids.len(),
            queue.covers.as_ptr(),
            queue.covers.len(),
            plane.as_mut_ptr(),
            plane.len(),
            mark,
        )
    }
}
