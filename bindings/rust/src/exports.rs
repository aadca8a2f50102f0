// Made from crates/ffi/src by `cargo run --example declare` in bindings/rust; do not edit.

//! The plain operations: each export of the library as a safe function, for callers with memory of their own.
//!
//! Each judges all that it is given, however it was made. A call that can be refused returns the number of the
//! refusal ([`Refusal::judge`](crate::Refusal::judge)), or 0; a refused call leaves what it was lent as it was.
//! The contracts stand in crates/ffi/src. Fill rules, modes and fills are numbers here, as in a layer record.

/// The number of the exports that stand here; [`version`] tells the number of those that are linked.
pub const VERSION: u32 = 2;

/// The declarations themselves, for the comparison with the Rust.
#[doc(hidden)]
pub mod raw {
    extern "C" {
        pub fn ffi_work_tiles(
            words: *mut [u32; 6],
            counts: *mut [usize; 2],
            tile: i32,
            tiles: usize,
            row: *const u64,
            row_len: usize,
            layers: *const u32,
            layers_len: usize,
            colors: *const f32,
            colors_len: usize,
            count: usize,
            keeps: bool,
            kept: *mut u8,
            kept_len: usize,
            clear: *const [f32; 4],
            is_previous: bool,
            previous: *const [f32; 4],
            a_ids: *mut u32,
            a_ids_len: usize,
            a_covers: *mut i8,
            a_covers_len: usize,
            b_ids: *mut u32,
            b_ids_len: usize,
            b_covers: *mut i8,
            b_covers_len: usize,
            told: *mut usize,
            told_len: usize,
            bottoms: *mut f32,
            bottoms_len: usize,
            planes: *mut f32,
            planes_len: usize,
            painted: *mut u32,
            painted_len: usize,
            done: *mut [usize; 5],
        ) -> u32;
        pub fn ffi_bound_part(
            layer_id: u32,
            tile_x: i16,
            tile_y: i16,
            part: *const u64,
            part_len: usize,
            bounds: *const i8,
            bounds_len: usize,
            low: *const [i8; 16],
            high: *const [i8; 16],
            lowest: *mut i16,
            lowest_len: usize,
            highest: *mut i16,
            highest_len: usize,
            least_non_zero: *mut u16,
            least_non_zero_len: usize,
            greatest_non_zero: *mut u16,
            greatest_non_zero_len: usize,
            least_even_odd: *mut u16,
            least_even_odd_len: usize,
            greatest_even_odd: *mut u16,
            greatest_even_odd_len: usize,
        ) -> u32;
        pub fn ffi_layer_count(tile: *const [u8; 8], count: *mut u32) -> bool;
        pub fn ffi_solid_color(tile: *const [u8; 8], color: *mut [u8; 4]) -> bool;
        pub fn ffi_update_layer_count(tile: *mut [u8; 8], given: bool, count: u32, previous: *mut u32) -> bool;
        pub fn ffi_update_solid_color(
            tile: *mut [u8; 8],
            given: bool,
            color: *const [u8; 4],
            previous: *mut [u8; 4],
        ) -> bool;
        pub fn ffi_settle(given: bool, tile: *mut [u8; 8], color: *const [u8; 4], is_written: *mut bool) -> u32;
        pub fn ffi_keep_count(
            last_ids: *const u32,
            last_ids_len: usize,
            last_kinds: *const u8,
            last_kinds_len: usize,
            last: usize,
            ids: *const u32,
            ids_len: usize,
            kinds: *const u8,
            kinds_len: usize,
            n: usize,
            is_kept: bool,
            kept: *mut [u8; 8],
            stays: *mut bool,
        ) -> u32;
        pub fn ffi_is_empty(covers: *const [i8; 16], rule: u32) -> bool;
        pub fn ffi_is_full(covers: *const [i8; 16], rule: u32) -> bool;
        pub fn ffi_carry(part: *const u64, part_len: usize, covers: *mut [i8; 16]) -> u32;
        pub fn ffi_doubled_area_to_coverage(d: i16, rule: u32) -> f32;
        pub fn ffi_paint_part(
            part: *const u64,
            part_len: usize,
            covers: *const [i8; 16],
            rule: u32,
            plane: *mut f32,
            plane_len: usize,
            mark: *mut u32,
        ) -> u32;
        pub fn ffi_mark_plane(plane: *const f32, plane_len: usize, mark: *mut u32) -> u32;
        pub fn ffi_octets(mark: u32) -> u32;
        pub fn ffi_decide_tile(
            list_ids: *const u32,
            list_ids_len: usize,
            list_covers: *const i8,
            list_covers_len: usize,
            list_flags: *const bool,
            list_flags_len: usize,
            n: usize,
            layers: *const u32,
            layers_len: usize,
            colors: *const f32,
            colors_len: usize,
            count: usize,
            is_kept: bool,
            kept: *mut [u8; 8],
            clear: *const [f32; 4],
            is_previous: bool,
            previous: *const [f32; 4],
            unmasked: *mut bool,
            unmasked_len: usize,
            told: *mut [usize; 3],
            bottom: *mut [f32; 4],
        ) -> u32;
        pub fn ffi_gpu_pack(
            layer_id: u32,
            tile_x: i16,
            tile_y: i16,
            local_x: u8,
            local_y: u8,
            double_area_multiplier: u8,
            cover: i8,
            word: *mut u64,
        ) -> u32;
        pub fn ffi_gpu_layer_id(word: u64) -> u32;
        pub fn ffi_gpu_tile_x(word: u64) -> i16;
        pub fn ffi_gpu_tile_y(word: u64) -> i16;
        pub fn ffi_gpu_local_x(word: u64) -> u8;
        pub fn ffi_gpu_local_y(word: u64) -> u8;
        pub fn ffi_gpu_double_area_multiplier(word: u64) -> u8;
        pub fn ffi_gpu_double_area(word: u64) -> i16;
        pub fn ffi_gpu_cover(word: u64) -> i8;
        pub fn ffi_gpu_fields(
            word: u64,
            layer_id: *mut u32,
            tile_x: *mut i16,
            tile_y: *mut i16,
            local_x: *mut u8,
            local_y: *mut u8,
            double_area_multiplier: *mut u8,
            double_area: *mut i16,
            cover: *mut i8,
        );
        pub fn ffi_gpu_does_ascend(row: *const u64, row_len: usize) -> bool;
        pub fn ffi_gpu_is_row(row: *const u64, row_len: usize, stored_tile_y: u64) -> bool;
        pub fn ffi_gpu_cmp(word: u64, other: u64) -> u8;
        pub fn ffi_gpu_search_last_by_tile_y(
            segments: *const u64,
            segments_len: usize,
            tile_y: i16,
            place: *mut usize,
        ) -> bool;
        pub fn ffi_gpu_search_last_by_tile_x(
            segments: *const u64,
            segments_len: usize,
            tile_x: i16,
            place: *mut usize,
        ) -> bool;
        pub fn ffi_gpu_search_last_by_layer_id(
            segments: *const u64,
            segments_len: usize,
            layer_id: u32,
            place: *mut usize,
        ) -> bool;
        pub fn ffi_gpu_search_last_by_tile_x_at_least(
            segments: *const u64,
            segments_len: usize,
            start: i16,
            wanted: bool,
            place: *mut usize,
        ) -> bool;
        pub fn ffi_gpu_search_last_by_layer_id_at_least(
            segments: *const u64,
            segments_len: usize,
            start: u32,
            wanted: bool,
            place: *mut usize,
        ) -> bool;
        pub fn ffi_gpu_search_last_by_tile_y_not_negative(
            segments: *const u64,
            segments_len: usize,
            wanted: bool,
            place: *mut usize,
        ) -> bool;
        pub fn ffi_gpu_is_empty(covers: *const [i8; 4], rule: u32) -> bool;
        pub fn ffi_gpu_is_full(covers: *const [i8; 4], rule: u32) -> bool;
        pub fn ffi_gpu_carry(part: *const u64, part_len: usize, covers: *mut [i8; 4]) -> u32;
        pub fn ffi_gpu_paint_part(
            part: *const u64,
            part_len: usize,
            covers: *const [i8; 4],
            rule: u32,
            plane: *mut f32,
            plane_len: usize,
        ) -> u32;
        pub fn ffi_gpu_open_layer_row(
            tile_y: i32,
            from: i32,
            to: i32,
            layer_id: u32,
            rule: u32,
            row: *const u64,
            row_len: usize,
            words: *mut [u32; 6],
            covers: *mut [i8; 4],
        ) -> u32;
        pub fn ffi_gpu_work_tile(
            words: *mut [u32; 6],
            covers: *mut [i8; 4],
            tile: i32,
            row: *const u64,
            row_len: usize,
            plane: *mut f32,
            plane_len: usize,
        ) -> u32;
        pub fn ffi_gpu_work_tiles(
            words: *mut [u32; 6],
            covers: *mut [i8; 4],
            tile: i32,
            tiles: usize,
            row: *const u64,
            row_len: usize,
            planes: *mut f32,
            planes_len: usize,
            done: *mut [usize; 3],
        ) -> u32;
        pub fn ffi_color_eq(color: *const [f32; 4], other: *const [f32; 4]) -> bool;
        pub fn ffi_is_opaque(fill: u32, blend_mode: u32, color: *const [f32; 4]) -> bool;
        pub fn ffi_blend_mode(code: u32) -> u32;
        pub fn ffi_is_short(
            layers: *const u32,
            layers_len: usize,
            colors: *const f32,
            colors_len: usize,
            count: usize,
        ) -> bool;
        pub fn ffi_is_table(
            layers: *const u32,
            layers_len: usize,
            colors: *const f32,
            colors_len: usize,
            count: usize,
        ) -> bool;
        pub fn ffi_list_tile(
            words: *mut [u32; 6],
            counts: *mut [usize; 2],
            tile: i32,
            row: *const u64,
            row_len: usize,
            layers: *const u32,
            layers_len: usize,
            colors: *const f32,
            colors_len: usize,
            count: usize,
            ids: *const u32,
            ids_len: usize,
            covers: *const i8,
            covers_len: usize,
            next_ids: *mut u32,
            next_ids_len: usize,
            next_covers: *mut i8,
            next_covers_len: usize,
            list_ids: *mut u32,
            list_ids_len: usize,
            list_covers: *mut i8,
            list_covers_len: usize,
            list_flags: *mut bool,
            list_flags_len: usize,
            listed: *mut usize,
        ) -> u32;
        pub fn ffi_paint_layer(
            words: *mut [u32; 6],
            counts: *mut [usize; 2],
            tile: i32,
            layer: u32,
            row: *const u64,
            row_len: usize,
            layers: *const u32,
            layers_len: usize,
            colors: *const f32,
            colors_len: usize,
            count: usize,
            ids: *const u32,
            ids_len: usize,
            covers: *const i8,
            covers_len: usize,
            plane: *mut f32,
            plane_len: usize,
            mark: *mut u32,
        ) -> u32;
        pub fn ffi_find_not_negative(segments: *const u64, segments_len: usize) -> usize;
        pub fn ffi_find_row(segments: *const u64, segments_len: usize, j: usize, end: *mut usize) -> usize;
        pub fn ffi_is_in_crop(is_given: bool, start: usize, end: usize, j: usize) -> bool;
        pub fn ffi_open_tile_row(
            tile_y: i32,
            from: i32,
            to: i32,
            row: *const u64,
            row_len: usize,
            layers: *const u32,
            layers_len: usize,
            colors: *const f32,
            colors_len: usize,
            count: usize,
            ids: *mut u32,
            ids_len: usize,
            covers: *mut i8,
            covers_len: usize,
            words: *mut [u32; 6],
            counts: *mut [usize; 2],
        ) -> u32;
        pub fn ffi_begin_set(
            layer_id: u32,
            tile_x: i16,
            tile_y: i16,
            covers: *const [i8; 16],
            part: *const u64,
            part_len: usize,
            layer: *mut u32,
            tile: *mut [i16; 2],
            carry: *mut [i8; 16],
            loads: *mut [u16; 16],
            count: *mut usize,
            slots: *mut u64,
            slots_len: usize,
            areas: *mut i16,
            areas_len: usize,
        ) -> u32;
        pub fn ffi_take_in(
            word: u64,
            layer: *const u32,
            tile: *const [i16; 2],
            carry: *mut [i8; 16],
            loads: *mut [u16; 16],
            count: *mut usize,
            slots: *mut u64,
            slots_len: usize,
            areas: *mut i16,
            areas_len: usize,
        ) -> u32;
        pub fn ffi_let_out(
            word: u64,
            layer: *const u32,
            tile: *const [i16; 2],
            carry: *mut [i8; 16],
            loads: *mut [u16; 16],
            count: *mut usize,
            slots: *mut u64,
            slots_len: usize,
            areas: *mut i16,
            areas_len: usize,
        ) -> u32;
        pub fn ffi_stand(
            records: *const u32,
            records_len: usize,
            record_colors: *const f32,
            record_colors_len: usize,
            layers: *mut u32,
            layers_len: usize,
            colors: *mut f32,
            colors_len: usize,
            standing: *mut usize,
        ) -> u32;
        pub fn ffi_version() -> u32;
        pub fn ffi_pack(
            layer_id: u32,
            tile_x: i16,
            tile_y: i16,
            local_x: u8,
            local_y: u8,
            double_area_multiplier: u8,
            cover: i8,
            word: *mut u64,
        ) -> u32;
        pub fn ffi_layer_id(word: u64) -> u32;
        pub fn ffi_tile_x(word: u64) -> i16;
        pub fn ffi_tile_y(word: u64) -> i16;
        pub fn ffi_local_x(word: u64) -> u8;
        pub fn ffi_local_y(word: u64) -> u8;
        pub fn ffi_double_area_multiplier(word: u64) -> u8;
        pub fn ffi_double_area(word: u64) -> i16;
        pub fn ffi_cover(word: u64) -> i8;
        pub fn ffi_cmp(word: u64, other: u64) -> u8;
        pub fn ffi_does_ascend(row: *const u64, row_len: usize) -> bool;
        pub fn ffi_is_row(row: *const u64, row_len: usize, stored_tile_y: u64) -> bool;
        pub fn ffi_search_last_by_tile_y(
            segments: *const u64,
            segments_len: usize,
            tile_y: i16,
            place: *mut usize,
        ) -> bool;
        pub fn ffi_search_last_by_tile_x(
            segments: *const u64,
            segments_len: usize,
            tile_x: i16,
            place: *mut usize,
        ) -> bool;
        pub fn ffi_search_last_by_layer_id(
            segments: *const u64,
            segments_len: usize,
            layer_id: u32,
            place: *mut usize,
        ) -> bool;
        pub fn ffi_search_last_by_tile_x_at_least(
            segments: *const u64,
            segments_len: usize,
            start: i16,
            wanted: bool,
            place: *mut usize,
        ) -> bool;
        pub fn ffi_search_last_by_tile_y_not_negative(
            segments: *const u64,
            segments_len: usize,
            wanted: bool,
            place: *mut usize,
        ) -> bool;
        pub fn ffi_work_tile(
            words: *mut [u32; 6],
            counts: *mut [usize; 2],
            tile: i32,
            row: *const u64,
            row_len: usize,
            layers: *const u32,
            layers_len: usize,
            colors: *const f32,
            colors_len: usize,
            count: usize,
            is_kept: bool,
            kept: *mut [u8; 8],
            clear: *const [f32; 4],
            is_previous: bool,
            previous: *const [f32; 4],
            ids: *const u32,
            ids_len: usize,
            covers: *const i8,
            covers_len: usize,
            next_ids: *mut u32,
            next_ids_len: usize,
            next_covers: *mut i8,
            next_covers_len: usize,
            list_ids: *mut u32,
            list_ids_len: usize,
            list_covers: *mut i8,
            list_covers_len: usize,
            list_flags: *mut bool,
            list_flags_len: usize,
            list_unmasked: *mut bool,
            list_unmasked_len: usize,
            told: *mut [usize; 4],
            bottom: *mut [f32; 4],
        ) -> u32;
    }
}

/// 0 or the number of the refusal: that of the first tile, which leaves all lent memory as it was, `done` too. Else
/// `words` and `counts` are the state after the tiles worked, and `done` tells how many these are (0 is possible), how
/// many planes they used, which queue holds the carries (0 the first, 1 the second), why the batch ended (0 all tiles that
/// were asked for are worked, 1 the row has no more, 2 no room for a further one, 3 the next one would be refused), and
/// the number of that refusal or 0. Each tile has six numbers in `told` (the decision, of a solid tile how many shown
/// layers lie before those to mix, how many layers are listed, skipped, shown, and how many carries are handed on), where
/// it is solid its bottom colour in `bottoms`, and where `keeps` is set its cached tile in eight bytes of `kept`. Each
/// painted layer has a plane, and its id and its mark in `painted`; each layer that a solid tile mixes has its id and mark
/// 0 there, and its plane is left as it was. A tile is worked only where as many planes are free as it can list layers:
/// 256, or the table's count where that is less.
#[allow(clippy::too_many_arguments)]
#[must_use]
#[inline]
pub fn work_tiles(
    words: &mut [u32; 6],
    counts: &mut [usize; 2],
    tile: i32,
    tiles: usize,
    row: &[u64],
    layers: &[u32],
    colors: &[f32],
    count: usize,
    keeps: bool,
    kept: &mut [u8],
    clear: &[f32; 4],
    is_previous: bool,
    previous: &[f32; 4],
    a_ids: &mut [u32],
    a_covers: &mut [i8],
    b_ids: &mut [u32],
    b_covers: &mut [i8],
    told: &mut [usize],
    bottoms: &mut [f32],
    planes: &mut [f32],
    painted: &mut [u32],
    done: &mut [usize; 5],
) -> u32 {
    // SAFETY: the references are those that the export takes, a slice with its own length; it is proved to keep
    // to them for every value, and nothing of them is held after the call.
    unsafe {
        raw::ffi_work_tiles(
            words,
            counts,
            tile,
            tiles,
            row.as_ptr(),
            row.len(),
            layers.as_ptr(),
            layers.len(),
            colors.as_ptr(),
            colors.len(),
            count,
            keeps,
            kept.as_mut_ptr(),
            kept.len(),
            clear,
            is_previous,
            previous,
            a_ids.as_mut_ptr(),
            a_ids.len(),
            a_covers.as_mut_ptr(),
            a_covers.len(),
            b_ids.as_mut_ptr(),
            b_ids.len(),
            b_covers.as_mut_ptr(),
            b_covers.len(),
            told.as_mut_ptr(),
            told.len(),
            bottoms.as_mut_ptr(),
            bottoms.len(),
            planes.as_mut_ptr(),
            planes.len(),
            painted.as_mut_ptr(),
            painted.len(),
            done,
        )
    }
}

/// 0 and the six planes, or the number of the refusal. `bounds` has two bytes a segment, its lowest and its highest
/// cover.
#[allow(clippy::too_many_arguments)]
#[must_use]
#[inline]
pub fn bound_part(
    layer_id: u32,
    tile_x: i16,
    tile_y: i16,
    part: &[u64],
    bounds: &[i8],
    low: &[i8; 16],
    high: &[i8; 16],
    lowest: &mut [i16],
    highest: &mut [i16],
    least_non_zero: &mut [u16],
    greatest_non_zero: &mut [u16],
    least_even_odd: &mut [u16],
    greatest_even_odd: &mut [u16],
) -> u32 {
    // SAFETY: the references are those that the export takes, a slice with its own length; it is proved to keep
    // to them for every value, and nothing of them is held after the call.
    unsafe {
        raw::ffi_bound_part(
            layer_id,
            tile_x,
            tile_y,
            part.as_ptr(),
            part.len(),
            bounds.as_ptr(),
            bounds.len(),
            low,
            high,
            lowest.as_mut_ptr(),
            lowest.len(),
            highest.as_mut_ptr(),
            highest.len(),
            least_non_zero.as_mut_ptr(),
            least_non_zero.len(),
            greatest_non_zero.as_mut_ptr(),
            greatest_non_zero.len(),
            least_even_odd.as_mut_ptr(),
            least_even_odd.len(),
            greatest_even_odd.as_mut_ptr(),
            greatest_even_odd.len(),
        )
    }
}

/// Whether the tile keeps a layer count; where it does, the count in `count`.
#[must_use]
#[inline]
pub fn layer_count(tile: &[u8; 8], count: &mut u32) -> bool {
    // SAFETY: the references are those that the export takes, a slice with its own length; it is proved to keep
    // to them for every value, and nothing of them is held after the call.
    unsafe { raw::ffi_layer_count(tile, count) }
}

/// Whether the tile keeps a solid colour; where it does, its bytes in `color`.
#[must_use]
#[inline]
pub fn solid_color(tile: &[u8; 8], color: &mut [u8; 4]) -> bool {
    // SAFETY: the references are those that the export takes, a slice with its own length; it is proved to keep
    // to them for every value, and nothing of them is held after the call.
    unsafe { raw::ffi_solid_color(tile, color) }
}

/// The tile keeps the count, where one is given, or none. Whether it kept one before; where it did, that one in
/// `previous`.
#[must_use]
#[inline]
pub fn update_layer_count(tile: &mut [u8; 8], given: bool, count: u32, previous: &mut u32) -> bool {
    // SAFETY: the references are those that the export takes, a slice with its own length; it is proved to keep
    // to them for every value, and nothing of them is held after the call.
    unsafe { raw::ffi_update_layer_count(tile, given, count, previous) }
}

/// The tile keeps the colour, where one is given, or none. Whether it kept one before; where it did, its bytes in
/// `previous`.
#[must_use]
#[inline]
pub fn update_solid_color(tile: &mut [u8; 8], given: bool, color: &[u8; 4], previous: &mut [u8; 4]) -> bool {
    // SAFETY: the references are those that the export takes, a slice with its own length; it is proved to keep
    // to them for every value, and nothing of them is held after the call.
    unsafe { raw::ffi_update_solid_color(tile, given, color, previous) }
}

/// Where a tile is given it keeps the bytes. 0 and whether they are to be written in `is_written`, or the number of the
/// refusal. The tile's bytes are stored where the call is accepted and a tile is given.
#[must_use]
#[inline]
pub fn settle(given: bool, tile: &mut [u8; 8], color: &[u8; 4], is_written: &mut bool) -> u32 {
    // SAFETY: the references are those that the export takes, a slice with its own length; it is proved to keep
    // to them for every value, and nothing of them is held after the call.
    unsafe { raw::ffi_settle(given, tile, color, is_written) }
}

/// 0 and in `stays` whether each of the `last` layers of one list stands among the `n` of another, as the same kind, or
/// the number of the refusal. Asked each way round about the layers that a tile showed and those that it would show, it
/// tells whether they are alike (docs/statements/kept.md). Where the answer is no, the count's tag is dropped and nothing
/// else. The tile's bytes are stored where the call is accepted and a tile is given.
#[allow(clippy::too_many_arguments)]
#[must_use]
#[inline]
pub fn keep_count(
    last_ids: &[u32],
    last_kinds: &[u8],
    last: usize,
    ids: &[u32],
    kinds: &[u8],
    n: usize,
    is_kept: bool,
    kept: &mut [u8; 8],
    stays: &mut bool,
) -> u32 {
    // SAFETY: the references are those that the export takes, a slice with its own length; it is proved to keep
    // to them for every value, and nothing of them is held after the call.
    unsafe {
        raw::ffi_keep_count(
            last_ids.as_ptr(),
            last_ids.len(),
            last_kinds.as_ptr(),
            last_kinds.len(),
            last,
            ids.as_ptr(),
            ids.len(),
            kinds.as_ptr(),
            kinds.len(),
            n,
            is_kept,
            kept,
            stays,
        )
    }
}

/// Whether a tile without segments shows nothing of a layer with this cover from the left, by its fill rule.
#[must_use]
#[inline]
pub fn is_empty(covers: &[i8; 16], rule: u32) -> bool {
    // SAFETY: the references are those that the export takes, a slice with its own length; it is proved to keep
    // to them for every value, and nothing of them is held after the call.
    unsafe { raw::ffi_is_empty(covers, rule) }
}

/// Whether a tile without segments is wholly covered by a layer with this cover from the left, by its fill rule.
#[must_use]
#[inline]
pub fn is_full(covers: &[i8; 16], rule: u32) -> bool {
    // SAFETY: the references are those that the export takes, a slice with its own length; it is proved to keep
    // to them for every value, and nothing of them is held after the call.
    unsafe { raw::ffi_is_full(covers, rule) }
}

/// 0 and the covers of the part added to those in `covers`, or the number of the refusal.
#[must_use]
#[inline]
pub fn carry(part: &[u64], covers: &mut [i8; 16]) -> u32 {
    // SAFETY: the references are those that the export takes, a slice with its own length; it is proved to keep
    // to them for every value, and nothing of them is held after the call.
    unsafe { raw::ffi_carry(part.as_ptr(), part.len(), covers) }
}

/// The coverage of a pixel that sees d.
#[must_use]
#[inline]
pub fn doubled_area_to_coverage(d: i16, rule: u32) -> f32 {
    // SAFETY: the references are those that the export takes, a slice with its own length; it is proved to keep
    // to them for every value, and nothing of them is held after the call.
    unsafe { raw::ffi_doubled_area_to_coverage(d, rule) }
}

/// 0, the coverages in `plane`, at row × 16 + column, and their mark in `mark`, or the number of the refusal.
#[must_use]
#[inline]
pub fn paint_part(part: &[u64], covers: &[i8; 16], rule: u32, plane: &mut [f32], mark: &mut u32) -> u32 {
    // SAFETY: the references are those that the export takes, a slice with its own length; it is proved to keep
    // to them for every value, and nothing of them is held after the call.
    unsafe { raw::ffi_paint_part(part.as_ptr(), part.len(), covers, rule, plane.as_mut_ptr(), plane.len(), mark) }
}

/// 0 and the mark of any plane in `mark`, or the number of the refusal.
#[must_use]
#[inline]
pub fn mark_plane(plane: &[f32], mark: &mut u32) -> u32 {
    // SAFETY: the references are those that the export takes, a slice with its own length; it is proved to keep
    // to them for every value, and nothing of them is held after the call.
    unsafe { raw::ffi_mark_plane(plane.as_ptr(), plane.len(), mark) }
}

/// How many octets a mark has.
#[must_use]
#[inline]
pub fn octets(mark: u32) -> u32 {
    // SAFETY: the references are those that the export takes, a slice with its own length; it is proved to keep
    // to them for every value, and nothing of them is held after the call.
    unsafe { raw::ffi_octets(mark) }
}

/// 0, the mask column, the cached tile and the answer, or the number of the refusal. The bytes of the cached tile are
/// stored where the call is accepted and a tile is given. Whether a layer is changed is told by the list's flags, from
/// place 256 on, and not by the table.
#[allow(clippy::too_many_arguments)]
#[must_use]
#[inline]
pub fn decide_tile(
    list_ids: &[u32],
    list_covers: &[i8],
    list_flags: &[bool],
    n: usize,
    layers: &[u32],
    colors: &[f32],
    count: usize,
    is_kept: bool,
    kept: &mut [u8; 8],
    clear: &[f32; 4],
    is_previous: bool,
    previous: &[f32; 4],
    unmasked: &mut [bool],
    told: &mut [usize; 3],
    bottom: &mut [f32; 4],
) -> u32 {
    // SAFETY: the references are those that the export takes, a slice with its own length; it is proved to keep
    // to them for every value, and nothing of them is held after the call.
    unsafe {
        raw::ffi_decide_tile(
            list_ids.as_ptr(),
            list_ids.len(),
            list_covers.as_ptr(),
            list_covers.len(),
            list_flags.as_ptr(),
            list_flags.len(),
            n,
            layers.as_ptr(),
            layers.len(),
            colors.as_ptr(),
            colors.len(),
            count,
            is_kept,
            kept,
            clear,
            is_previous,
            previous,
            unmasked.as_mut_ptr(),
            unmasked.len(),
            told,
            bottom,
        )
    }
}

/// 0 and the word in `word`, or 11.
#[allow(clippy::too_many_arguments)]
#[must_use]
#[inline]
pub fn gpu_pack(
    layer_id: u32,
    tile_x: i16,
    tile_y: i16,
    local_x: u8,
    local_y: u8,
    double_area_multiplier: u8,
    cover: i8,
    word: &mut u64,
) -> u32 {
    // SAFETY: the references are those that the export takes, a slice with its own length; it is proved to keep
    // to them for every value, and nothing of them is held after the call.
    unsafe { raw::ffi_gpu_pack(layer_id, tile_x, tile_y, local_x, local_y, double_area_multiplier, cover, word) }
}

/// The layer id of a packed word; any word has one. 0 to 2,097,151. Of tiles four pixels high.
#[must_use]
#[inline]
pub fn gpu_layer_id(word: u64) -> u32 {
    // SAFETY: the references are those that the export takes, a slice with its own length; it is proved to keep
    // to them for every value, and nothing of them is held after the call.
    unsafe { raw::ffi_gpu_layer_id(word) }
}

/// Tile x of a packed word; any word has one. -1 to 4,094. Of tiles four pixels high.
#[must_use]
#[inline]
pub fn gpu_tile_x(word: u64) -> i16 {
    // SAFETY: the references are those that the export takes, a slice with its own length; it is proved to keep
    // to them for every value, and nothing of them is held after the call.
    unsafe { raw::ffi_gpu_tile_x(word) }
}

/// Tile y of a packed word; any word has one. -1 to 8,190. Of tiles four pixels high.
#[must_use]
#[inline]
pub fn gpu_tile_y(word: u64) -> i16 {
    // SAFETY: the references are those that the export takes, a slice with its own length; it is proved to keep
    // to them for every value, and nothing of them is held after the call.
    unsafe { raw::ffi_gpu_tile_y(word) }
}

/// Local x of a packed word; any word has one. 0 to 15. Of tiles four pixels high.
#[must_use]
#[inline]
pub fn gpu_local_x(word: u64) -> u8 {
    // SAFETY: the references are those that the export takes, a slice with its own length; it is proved to keep
    // to them for every value, and nothing of them is held after the call.
    unsafe { raw::ffi_gpu_local_x(word) }
}

/// Local y of a packed word; any word has one. 0 to 3. Of tiles four pixels high.
#[must_use]
#[inline]
pub fn gpu_local_y(word: u64) -> u8 {
    // SAFETY: the references are those that the export takes, a slice with its own length; it is proved to keep
    // to them for every value, and nothing of them is held after the call.
    unsafe { raw::ffi_gpu_local_y(word) }
}

/// The double area's multiplier of a packed word; any word has one. 0 to 63. Of tiles four pixels high.
#[must_use]
#[inline]
pub fn gpu_double_area_multiplier(word: u64) -> u8 {
    // SAFETY: the references are those that the export takes, a slice with its own length; it is proved to keep
    // to them for every value, and nothing of them is held after the call.
    unsafe { raw::ffi_gpu_double_area_multiplier(word) }
}

/// The double area of a packed word: multiplier times cover. Of tiles four pixels high.
#[must_use]
#[inline]
pub fn gpu_double_area(word: u64) -> i16 {
    // SAFETY: the references are those that the export takes, a slice with its own length; it is proved to keep
    // to them for every value, and nothing of them is held after the call.
    unsafe { raw::ffi_gpu_double_area(word) }
}

/// The cover of a packed word; any word has one. -32 to 31. Of tiles four pixels high.
#[must_use]
#[inline]
pub fn gpu_cover(word: u64) -> i8 {
    // SAFETY: the references are those that the export takes, a slice with its own length; it is proved to keep
    // to them for every value, and nothing of them is held after the call.
    unsafe { raw::ffi_gpu_cover(word) }
}

/// All of them in one call.
#[allow(clippy::too_many_arguments)]
#[inline]
pub fn gpu_fields(
    word: u64,
    layer_id: &mut u32,
    tile_x: &mut i16,
    tile_y: &mut i16,
    local_x: &mut u8,
    local_y: &mut u8,
    double_area_multiplier: &mut u8,
    double_area: &mut i16,
    cover: &mut i8,
) {
    // SAFETY: the references are those that the export takes, a slice with its own length; it is proved to keep
    // to them for every value, and nothing of them is held after the call.
    unsafe {
        raw::ffi_gpu_fields(
            word,
            layer_id,
            tile_x,
            tile_y,
            local_x,
            local_y,
            double_area_multiplier,
            double_area,
            cover,
        )
    }
}

/// Whether the words do not descend by tile y, tile x and layer.
#[must_use]
#[inline]
pub fn gpu_does_ascend(row: &[u64]) -> bool {
    // SAFETY: the references are those that the export takes, a slice with its own length; it is proved to keep
    // to them for every value, and nothing of them is held after the call.
    unsafe { raw::ffi_gpu_does_ascend(row.as_ptr(), row.len()) }
}

/// Whether they are a row: they ascend, and each has the stored tile y, which is its own plus 1.
#[must_use]
#[inline]
pub fn gpu_is_row(row: &[u64], stored_tile_y: u64) -> bool {
    // SAFETY: the references are those that the export takes, a slice with its own length; it is proved to keep
    // to them for every value, and nothing of them is held after the call.
    unsafe { raw::ffi_gpu_is_row(row.as_ptr(), row.len(), stored_tile_y) }
}

/// How a segment compares with another: 0 less, 1 equal, 2 greater.
#[must_use]
#[inline]
pub fn gpu_cmp(word: u64, other: u64) -> u8 {
    // SAFETY: the references are those that the export takes, a slice with its own length; it is proved to keep
    // to them for every value, and nothing of them is held after the call.
    unsafe { raw::ffi_gpu_cmp(word, other) }
}

/// The last place whose key is the wanted one in `place`, and true; or where it would stand, and false. On words
/// that the key does not sort, the halving of the painter decides. The key is tile y. Of tiles four pixels high.
#[must_use]
#[inline]
pub fn gpu_search_last_by_tile_y(segments: &[u64], tile_y: i16, place: &mut usize) -> bool {
    // SAFETY: the references are those that the export takes, a slice with its own length; it is proved to keep
    // to them for every value, and nothing of them is held after the call.
    unsafe { raw::ffi_gpu_search_last_by_tile_y(segments.as_ptr(), segments.len(), tile_y, place) }
}

/// The last place whose key is the wanted one in `place`, and true; or where it would stand, and false. On words
/// that the key does not sort, the halving of the painter decides. The key is tile x. Of tiles four pixels high.
#[must_use]
#[inline]
pub fn gpu_search_last_by_tile_x(segments: &[u64], tile_x: i16, place: &mut usize) -> bool {
    // SAFETY: the references are those that the export takes, a slice with its own length; it is proved to keep
    // to them for every value, and nothing of them is held after the call.
    unsafe { raw::ffi_gpu_search_last_by_tile_x(segments.as_ptr(), segments.len(), tile_x, place) }
}

/// The last place whose key is the wanted one in `place`, and true; or where it would stand, and false. On words
/// that the key does not sort, the halving of the painter decides. The key is the layer id. Of tiles four pixels
/// high.
#[must_use]
#[inline]
pub fn gpu_search_last_by_layer_id(segments: &[u64], layer_id: u32, place: &mut usize) -> bool {
    // SAFETY: the references are those that the export takes, a slice with its own length; it is proved to keep
    // to them for every value, and nothing of them is held after the call.
    unsafe { raw::ffi_gpu_search_last_by_layer_id(segments.as_ptr(), segments.len(), layer_id, place) }
}

/// The last place whose key is the wanted one in `place`, and true; or where it would stand, and false. On words
/// that the key does not sort, the halving of the painter decides. The key is whether tile x is at least `start`.
/// Of tiles four pixels high.
#[must_use]
#[inline]
pub fn gpu_search_last_by_tile_x_at_least(segments: &[u64], start: i16, wanted: bool, place: &mut usize) -> bool {
    // SAFETY: the references are those that the export takes, a slice with its own length; it is proved to keep
    // to them for every value, and nothing of them is held after the call.
    unsafe { raw::ffi_gpu_search_last_by_tile_x_at_least(segments.as_ptr(), segments.len(), start, wanted, place) }
}

/// The last place whose key is the wanted one in `place`, and true; or where it would stand, and false. On words
/// that the key does not sort, the halving of the painter decides. The key is whether the layer id is at least
/// `start`. Of tiles four pixels high.
#[must_use]
#[inline]
pub fn gpu_search_last_by_layer_id_at_least(segments: &[u64], start: u32, wanted: bool, place: &mut usize) -> bool {
    // SAFETY: the references are those that the export takes, a slice with its own length; it is proved to keep
    // to them for every value, and nothing of them is held after the call.
    unsafe { raw::ffi_gpu_search_last_by_layer_id_at_least(segments.as_ptr(), segments.len(), start, wanted, place) }
}

/// The last place whose key is the wanted one in `place`, and true; or where it would stand, and false. On words
/// that the key does not sort, the halving of the painter decides. The key is whether tile y is 0 or more. Of tiles
/// four pixels high.
#[must_use]
#[inline]
pub fn gpu_search_last_by_tile_y_not_negative(segments: &[u64], wanted: bool, place: &mut usize) -> bool {
    // SAFETY: the references are those that the export takes, a slice with its own length; it is proved to keep
    // to them for every value, and nothing of them is held after the call.
    unsafe { raw::ffi_gpu_search_last_by_tile_y_not_negative(segments.as_ptr(), segments.len(), wanted, place) }
}

/// Whether a tile without segments shows nothing of a layer with this cover from the left, by its fill rule. Of
/// tiles four pixels high.
#[must_use]
#[inline]
pub fn gpu_is_empty(covers: &[i8; 4], rule: u32) -> bool {
    // SAFETY: the references are those that the export takes, a slice with its own length; it is proved to keep
    // to them for every value, and nothing of them is held after the call.
    unsafe { raw::ffi_gpu_is_empty(covers, rule) }
}

/// Whether a tile without segments is wholly covered by a layer with this cover from the left, by its fill rule. Of
/// tiles four pixels high.
#[must_use]
#[inline]
pub fn gpu_is_full(covers: &[i8; 4], rule: u32) -> bool {
    // SAFETY: the references are those that the export takes, a slice with its own length; it is proved to keep
    // to them for every value, and nothing of them is held after the call.
    unsafe { raw::ffi_gpu_is_full(covers, rule) }
}

/// 0 and the covers of the part added to those in `covers`, or 9.
#[must_use]
#[inline]
pub fn gpu_carry(part: &[u64], covers: &mut [i8; 4]) -> u32 {
    // SAFETY: the references are those that the export takes, a slice with its own length; it is proved to keep
    // to them for every value, and nothing of them is held after the call.
    unsafe { raw::ffi_gpu_carry(part.as_ptr(), part.len(), covers) }
}

/// 0 and the coverages in `plane`, or the number of the refusal.
#[must_use]
#[inline]
pub fn gpu_paint_part(part: &[u64], covers: &[i8; 4], rule: u32, plane: &mut [f32]) -> u32 {
    // SAFETY: the references are those that the export takes, a slice with its own length; it is proved to keep
    // to them for every value, and nothing of them is held after the call.
    unsafe { raw::ffi_gpu_paint_part(part.as_ptr(), part.len(), covers, rule, plane.as_mut_ptr(), plane.len()) }
}

/// 0 and the state before the first tile in `words` and `covers`, or the number of the refusal. The layer and the number
/// of its rule are judged as a layer record is, by 4.
#[allow(clippy::too_many_arguments)]
#[must_use]
#[inline]
pub fn gpu_open_layer_row(
    tile_y: i32,
    from: i32,
    to: i32,
    layer_id: u32,
    rule: u32,
    row: &[u64],
    words: &mut [u32; 6],
    covers: &mut [i8; 4],
) -> u32 {
    // SAFETY: the references are those that the export takes, a slice with its own length; it is proved to keep
    // to them for every value, and nothing of them is held after the call.
    unsafe { raw::ffi_gpu_open_layer_row(tile_y, from, to, layer_id, rule, row.as_ptr(), row.len(), words, covers) }
}

/// 0, the tile's coverages in `plane` and the state past the tile, or the number of the refusal.
#[must_use]
#[inline]
pub fn gpu_work_tile(words: &mut [u32; 6], covers: &mut [i8; 4], tile: i32, row: &[u64], plane: &mut [f32]) -> u32 {
    // SAFETY: the references are those that the export takes, a slice with its own length; it is proved to keep
    // to them for every value, and nothing of them is held after the call.
    unsafe { raw::ffi_gpu_work_tile(words, covers, tile, row.as_ptr(), row.len(), plane.as_mut_ptr(), plane.len()) }
}

/// A range of up to `tiles` tiles from `tile` on: 0, the coverages of each tile in the next 64 numbers of `planes`, the
/// state past them, and in `done` how many tiles were worked, why the range ended (0 all that were asked for, 1 the row's
/// end, 2 no plane is left, 3 the next tile would be refused) and by which number the next tile would be refused, else 0.
/// Or the number by which the first tile's own call would be refused; every lent number is then as it was, `done` too.
#[must_use]
#[inline]
pub fn gpu_work_tiles(
    words: &mut [u32; 6],
    covers: &mut [i8; 4],
    tile: i32,
    tiles: usize,
    row: &[u64],
    planes: &mut [f32],
    done: &mut [usize; 3],
) -> u32 {
    // SAFETY: the references are those that the export takes, a slice with its own length; it is proved to keep
    // to them for every value, and nothing of them is held after the call.
    unsafe {
        raw::ffi_gpu_work_tiles(
            words,
            covers,
            tile,
            tiles,
            row.as_ptr(),
            row.len(),
            planes.as_mut_ptr(),
            planes.len(),
            done,
        )
    }
}

/// Whether two colours are equal by ==, number by number: both zeros agree, and NaN equals nothing.
#[must_use]
#[inline]
pub fn color_eq(color: &[f32; 4], other: &[f32; 4]) -> bool {
    // SAFETY: the references are those that the export takes, a slice with its own length; it is proved to keep
    // to them for every value, and nothing of them is held after the call.
    unsafe { raw::ffi_color_eq(color, other) }
}

/// Whether a draw with this fill, blend mode and colour hides what is below it.
#[must_use]
#[inline]
pub fn is_opaque(fill: u32, blend_mode: u32, color: &[f32; 4]) -> bool {
    // SAFETY: the references are those that the export takes, a slice with its own length; it is proved to keep
    // to them for every value, and nothing of them is held after the call.
    unsafe { raw::ffi_is_opaque(fill, blend_mode, color) }
}

/// The number of the blend mode of a number.
#[must_use]
#[inline]
pub fn blend_mode(code: u32) -> u32 {
    // SAFETY: the references are those that the export takes, a slice with its own length; it is proved to keep
    // to them for every value, and nothing of them is held after the call.
    unsafe { raw::ffi_blend_mode(code) }
}

/// Whether the table is shorter than its count.
#[must_use]
#[inline]
pub fn is_short(layers: &[u32], colors: &[f32], count: usize) -> bool {
    // SAFETY: the references are those that the export takes, a slice with its own length; it is proved to keep
    // to them for every value, and nothing of them is held after the call.
    unsafe { raw::ffi_is_short(layers.as_ptr(), layers.len(), colors.as_ptr(), colors.len(), count) }
}

/// Whether no refusal applies to the table.
#[must_use]
#[inline]
pub fn is_table(layers: &[u32], colors: &[f32], count: usize) -> bool {
    // SAFETY: the references are those that the export takes, a slice with its own length; it is proved to keep
    // to them for every value, and nothing of them is held after the call.
    unsafe { raw::ffi_is_table(layers.as_ptr(), layers.len(), colors.as_ptr(), colors.len(), count) }
}

/// 0, the list, the carries handed on, how many layers are listed and the state past the tile, or the number of the
/// refusal. Of the flags, that at place i says whether entry i has segments in the tile, that at place 256 + i whether
/// its layer is changed.
#[allow(clippy::too_many_arguments)]
#[must_use]
#[inline]
pub fn list_tile(
    words: &mut [u32; 6],
    counts: &mut [usize; 2],
    tile: i32,
    row: &[u64],
    layers: &[u32],
    colors: &[f32],
    count: usize,
    ids: &[u32],
    covers: &[i8],
    next_ids: &mut [u32],
    next_covers: &mut [i8],
    list_ids: &mut [u32],
    list_covers: &mut [i8],
    list_flags: &mut [bool],
    listed: &mut usize,
) -> u32 {
    // SAFETY: the references are those that the export takes, a slice with its own length; it is proved to keep
    // to them for every value, and nothing of them is held after the call.
    unsafe {
        raw::ffi_list_tile(
            words,
            counts,
            tile,
            row.as_ptr(),
            row.len(),
            layers.as_ptr(),
            layers.len(),
            colors.as_ptr(),
            colors.len(),
            count,
            ids.as_ptr(),
            ids.len(),
            covers.as_ptr(),
            covers.len(),
            next_ids.as_mut_ptr(),
            next_ids.len(),
            next_covers.as_mut_ptr(),
            next_covers.len(),
            list_ids.as_mut_ptr(),
            list_ids.len(),
            list_covers.as_mut_ptr(),
            list_covers.len(),
            list_flags.as_mut_ptr(),
            list_flags.len(),
            listed,
        )
    }
}

/// 0, the coverages in `plane`, at row × 16 + column, their mark in `mark` and the state with the painter's clip, or
/// the number of the refusal.
#[allow(clippy::too_many_arguments)]
#[must_use]
#[inline]
pub fn paint_layer(
    words: &mut [u32; 6],
    counts: &mut [usize; 2],
    tile: i32,
    layer: u32,
    row: &[u64],
    layers: &[u32],
    colors: &[f32],
    count: usize,
    ids: &[u32],
    covers: &[i8],
    plane: &mut [f32],
    mark: &mut u32,
) -> u32 {
    // SAFETY: the references are those that the export takes, a slice with its own length; it is proved to keep
    // to them for every value, and nothing of them is held after the call.
    unsafe {
        raw::ffi_paint_layer(
            words,
            counts,
            tile,
            layer,
            row.as_ptr(),
            row.len(),
            layers.as_ptr(),
            layers.len(),
            colors.as_ptr(),
            colors.len(),
            count,
            ids.as_ptr(),
            ids.len(),
            covers.as_ptr(),
            covers.len(),
            plane.as_mut_ptr(),
            plane.len(),
            mark,
        )
    }
}

/// Where the segments start that have no negative tile y.
#[must_use]
#[inline]
pub fn find_not_negative(segments: &[u64]) -> usize {
    // SAFETY: the references are those that the export takes, a slice with its own length; it is proved to keep
    // to them for every value, and nothing of them is held after the call.
    unsafe { raw::ffi_find_not_negative(segments.as_ptr(), segments.len()) }
}

/// Where row j starts; in `end` where it ends, one past its last segment.
#[must_use]
#[inline]
pub fn find_row(segments: &[u64], j: usize, end: &mut usize) -> usize {
    // SAFETY: the references are those that the export takes, a slice with its own length; it is proved to keep
    // to them for every value, and nothing of them is held after the call.
    unsafe { raw::ffi_find_row(segments.as_ptr(), segments.len(), j, end) }
}

/// Whether row `j` is within a crop of the rows `start` up to `end`; without a crop (`is_given` false) every row
/// is.
#[must_use]
#[inline]
pub fn is_in_crop(is_given: bool, start: usize, end: usize, j: usize) -> bool {
    // SAFETY: the references are those that the export takes, a slice with its own length; it is proved to keep
    // to them for every value, and nothing of them is held after the call.
    unsafe { raw::ffi_is_in_crop(is_given, start, end, j) }
}

/// 0, the carries in the lent queue and the state before the first tile in `words` and `counts`, or the number of the
/// refusal.
#[allow(clippy::too_many_arguments)]
#[must_use]
#[inline]
pub fn open_tile_row(
    tile_y: i32,
    from: i32,
    to: i32,
    row: &[u64],
    layers: &[u32],
    colors: &[f32],
    count: usize,
    ids: &mut [u32],
    covers: &mut [i8],
    words: &mut [u32; 6],
    counts: &mut [usize; 2],
) -> u32 {
    // SAFETY: the references are those that the export takes, a slice with its own length; it is proved to keep
    // to them for every value, and nothing of them is held after the call.
    unsafe {
        raw::ffi_open_tile_row(
            tile_y,
            from,
            to,
            row.as_ptr(),
            row.len(),
            layers.as_ptr(),
            layers.len(),
            colors.as_ptr(),
            colors.len(),
            count,
            ids.as_mut_ptr(),
            ids.len(),
            covers.as_mut_ptr(),
            covers.len(),
            words,
            counts,
        )
    }
}

/// 0, the words of the part in `slots`, their d in `areas`, and which layer and tile the set is of with its other
/// numbers; or the number of the refusal. `covers` is the incoming cover.
#[allow(clippy::too_many_arguments)]
#[must_use]
#[inline]
pub fn begin_set(
    layer_id: u32,
    tile_x: i16,
    tile_y: i16,
    covers: &[i8; 16],
    part: &[u64],
    layer: &mut u32,
    tile: &mut [i16; 2],
    carry: &mut [i8; 16],
    loads: &mut [u16; 16],
    count: &mut usize,
    slots: &mut [u64],
    areas: &mut [i16],
) -> u32 {
    // SAFETY: the references are those that the export takes, a slice with its own length; it is proved to keep
    // to them for every value, and nothing of them is held after the call.
    unsafe {
        raw::ffi_begin_set(
            layer_id,
            tile_x,
            tile_y,
            covers,
            part.as_ptr(),
            part.len(),
            layer,
            tile,
            carry,
            loads,
            count,
            slots.as_mut_ptr(),
            slots.len(),
            areas.as_mut_ptr(),
            areas.len(),
        )
    }
}

/// 0 and the segment taken in, or the number of the refusal. Of which layer and tile it has to be, the beginning wrote.
#[allow(clippy::too_many_arguments)]
#[must_use]
#[inline]
pub fn take_in(
    word: u64,
    layer: &u32,
    tile: &[i16; 2],
    carry: &mut [i8; 16],
    loads: &mut [u16; 16],
    count: &mut usize,
    slots: &mut [u64],
    areas: &mut [i16],
) -> u32 {
    // SAFETY: the references are those that the export takes, a slice with its own length; it is proved to keep
    // to them for every value, and nothing of them is held after the call.
    unsafe {
        raw::ffi_take_in(
            word,
            layer,
            tile,
            carry,
            loads,
            count,
            slots.as_mut_ptr(),
            slots.len(),
            areas.as_mut_ptr(),
            areas.len(),
        )
    }
}

/// 0 and one equal segment let out, or the number of the refusal. Of which layer and tile it has to be, the beginning
/// wrote.
#[allow(clippy::too_many_arguments)]
#[must_use]
#[inline]
pub fn let_out(
    word: u64,
    layer: &u32,
    tile: &[i16; 2],
    carry: &mut [i8; 16],
    loads: &mut [u16; 16],
    count: &mut usize,
    slots: &mut [u64],
    areas: &mut [i16],
) -> u32 {
    // SAFETY: the references are those that the export takes, a slice with its own length; it is proved to keep
    // to them for every value, and nothing of them is held after the call.
    unsafe {
        raw::ffi_let_out(
            word,
            layer,
            tile,
            carry,
            loads,
            count,
            slots.as_mut_ptr(),
            slots.len(),
            areas.as_mut_ptr(),
            areas.len(),
        )
    }
}

/// 0, the standing layers in the lent table and in `standing` how many they are, or the number of the refusal. A record
/// is ten words and four floats; what is left over of either plays no part.
#[must_use]
#[inline]
pub fn stand(
    records: &[u32],
    record_colors: &[f32],
    layers: &mut [u32],
    colors: &mut [f32],
    standing: &mut usize,
) -> u32 {
    // SAFETY: the references are those that the export takes, a slice with its own length; it is proved to keep
    // to them for every value, and nothing of them is held after the call.
    unsafe {
        raw::ffi_stand(
            records.as_ptr(),
            records.len(),
            record_colors.as_ptr(),
            record_colors.len(),
            layers.as_mut_ptr(),
            layers.len(),
            colors.as_mut_ptr(),
            colors.len(),
            standing,
        )
    }
}

/// The number of these exports. It is another wherever a name, a parameter, a result or the layout of lent memory is.
#[must_use]
#[inline]
pub fn version() -> u32 {
    // SAFETY: the references are those that the export takes, a slice with its own length; it is proved to keep
    // to them for every value, and nothing of them is held after the call.
    unsafe { raw::ffi_version() }
}

/// 0 and the word in `word`, or 11 where a field is out of its range. The parameters are as wide as the fields'
/// types: a compiler that is given wider numbers cuts them before the call, and what is cut can't be judged.
#[allow(clippy::too_many_arguments)]
#[must_use]
#[inline]
pub fn pack(
    layer_id: u32,
    tile_x: i16,
    tile_y: i16,
    local_x: u8,
    local_y: u8,
    double_area_multiplier: u8,
    cover: i8,
    word: &mut u64,
) -> u32 {
    // SAFETY: the references are those that the export takes, a slice with its own length; it is proved to keep
    // to them for every value, and nothing of them is held after the call.
    unsafe { raw::ffi_pack(layer_id, tile_x, tile_y, local_x, local_y, double_area_multiplier, cover, word) }
}

/// The layer id of a packed word; any word has one. 0 to 2,097,151.
#[must_use]
#[inline]
pub fn layer_id(word: u64) -> u32 {
    // SAFETY: the references are those that the export takes, a slice with its own length; it is proved to keep
    // to them for every value, and nothing of them is held after the call.
    unsafe { raw::ffi_layer_id(word) }
}

/// Tile x of a packed word; any word has one. -1 to 4,094.
#[must_use]
#[inline]
pub fn tile_x(word: u64) -> i16 {
    // SAFETY: the references are those that the export takes, a slice with its own length; it is proved to keep
    // to them for every value, and nothing of them is held after the call.
    unsafe { raw::ffi_tile_x(word) }
}

/// Tile y of a packed word; any word has one. -1 to 2,046.
#[must_use]
#[inline]
pub fn tile_y(word: u64) -> i16 {
    // SAFETY: the references are those that the export takes, a slice with its own length; it is proved to keep
    // to them for every value, and nothing of them is held after the call.
    unsafe { raw::ffi_tile_y(word) }
}

/// Local x of a packed word; any word has one. 0 to 15.
#[must_use]
#[inline]
pub fn local_x(word: u64) -> u8 {
    // SAFETY: the references are those that the export takes, a slice with its own length; it is proved to keep
    // to them for every value, and nothing of them is held after the call.
    unsafe { raw::ffi_local_x(word) }
}

/// Local y of a packed word; any word has one. 0 to 15.
#[must_use]
#[inline]
pub fn local_y(word: u64) -> u8 {
    // SAFETY: the references are those that the export takes, a slice with its own length; it is proved to keep
    // to them for every value, and nothing of them is held after the call.
    unsafe { raw::ffi_local_y(word) }
}

/// The double area's multiplier of a packed word; any word has one. 0 to 63.
#[must_use]
#[inline]
pub fn double_area_multiplier(word: u64) -> u8 {
    // SAFETY: the references are those that the export takes, a slice with its own length; it is proved to keep
    // to them for every value, and nothing of them is held after the call.
    unsafe { raw::ffi_double_area_multiplier(word) }
}

/// The double area of a packed word: multiplier times cover.
#[must_use]
#[inline]
pub fn double_area(word: u64) -> i16 {
    // SAFETY: the references are those that the export takes, a slice with its own length; it is proved to keep
    // to them for every value, and nothing of them is held after the call.
    unsafe { raw::ffi_double_area(word) }
}

/// The cover of a packed word; any word has one. -32 to 31.
#[must_use]
#[inline]
pub fn cover(word: u64) -> i8 {
    // SAFETY: the references are those that the export takes, a slice with its own length; it is proved to keep
    // to them for every value, and nothing of them is held after the call.
    unsafe { raw::ffi_cover(word) }
}

/// How a segment compares with another: 0 less, 1 equal, 2 greater.
#[must_use]
#[inline]
pub fn cmp(word: u64, other: u64) -> u8 {
    // SAFETY: the references are those that the export takes, a slice with its own length; it is proved to keep
    // to them for every value, and nothing of them is held after the call.
    unsafe { raw::ffi_cmp(word, other) }
}

/// Whether no word is less than the one before it, by tile y, tile x and layer.
#[must_use]
#[inline]
pub fn does_ascend(row: &[u64]) -> bool {
    // SAFETY: the references are those that the export takes, a slice with its own length; it is proved to keep
    // to them for every value, and nothing of them is held after the call.
    unsafe { raw::ffi_does_ascend(row.as_ptr(), row.len()) }
}

/// Whether the words are a row: they ascend, and each has the stored tile y, which is the row's number plus 1: 1
/// for row 0.
#[must_use]
#[inline]
pub fn is_row(row: &[u64], stored_tile_y: u64) -> bool {
    // SAFETY: the references are those that the export takes, a slice with its own length; it is proved to keep
    // to them for every value, and nothing of them is held after the call.
    unsafe { raw::ffi_is_row(row.as_ptr(), row.len(), stored_tile_y) }
}

/// The last place whose key is the wanted one in `place`, and true; or where it would stand, and false. On words
/// that the key does not sort, the halving of the painter decides. The key is tile y.
#[must_use]
#[inline]
pub fn search_last_by_tile_y(segments: &[u64], tile_y: i16, place: &mut usize) -> bool {
    // SAFETY: the references are those that the export takes, a slice with its own length; it is proved to keep
    // to them for every value, and nothing of them is held after the call.
    unsafe { raw::ffi_search_last_by_tile_y(segments.as_ptr(), segments.len(), tile_y, place) }
}

/// The last place whose key is the wanted one in `place`, and true; or where it would stand, and false. On words
/// that the key does not sort, the halving of the painter decides. The key is tile x.
#[must_use]
#[inline]
pub fn search_last_by_tile_x(segments: &[u64], tile_x: i16, place: &mut usize) -> bool {
    // SAFETY: the references are those that the export takes, a slice with its own length; it is proved to keep
    // to them for every value, and nothing of them is held after the call.
    unsafe { raw::ffi_search_last_by_tile_x(segments.as_ptr(), segments.len(), tile_x, place) }
}

/// The last place whose key is the wanted one in `place`, and true; or where it would stand, and false. On words
/// that the key does not sort, the halving of the painter decides. The key is the layer id.
#[must_use]
#[inline]
pub fn search_last_by_layer_id(segments: &[u64], layer_id: u32, place: &mut usize) -> bool {
    // SAFETY: the references are those that the export takes, a slice with its own length; it is proved to keep
    // to them for every value, and nothing of them is held after the call.
    unsafe { raw::ffi_search_last_by_layer_id(segments.as_ptr(), segments.len(), layer_id, place) }
}

/// The last place whose key is the wanted one in `place`, and true; or where it would stand, and false. On words
/// that the key does not sort, the halving of the painter decides. The key is whether tile x is at least `start`.
#[must_use]
#[inline]
pub fn search_last_by_tile_x_at_least(segments: &[u64], start: i16, wanted: bool, place: &mut usize) -> bool {
    // SAFETY: the references are those that the export takes, a slice with its own length; it is proved to keep
    // to them for every value, and nothing of them is held after the call.
    unsafe { raw::ffi_search_last_by_tile_x_at_least(segments.as_ptr(), segments.len(), start, wanted, place) }
}

/// The last place whose key is the wanted one in `place`, and true; or where it would stand, and false. On words
/// that the key does not sort, the halving of the painter decides. The key is whether tile y is 0 or more.
#[must_use]
#[inline]
pub fn search_last_by_tile_y_not_negative(segments: &[u64], wanted: bool, place: &mut usize) -> bool {
    // SAFETY: the references are those that the export takes, a slice with its own length; it is proved to keep
    // to them for every value, and nothing of them is held after the call.
    unsafe { raw::ffi_search_last_by_tile_y_not_negative(segments.as_ptr(), segments.len(), wanted, place) }
}

/// 0, the list, the carries handed on, the cached tile, the answer and the state past the tile, or the number of the
/// refusal. The bytes of the cached tile are stored where the call is accepted and a tile is given. Of the flags, that
/// at place i says whether entry i has segments in the tile, that at place 256 + i whether its layer is changed.
#[allow(clippy::too_many_arguments)]
#[must_use]
#[inline]
pub fn work_tile(
    words: &mut [u32; 6],
    counts: &mut [usize; 2],
    tile: i32,
    row: &[u64],
    layers: &[u32],
    colors: &[f32],
    count: usize,
    is_kept: bool,
    kept: &mut [u8; 8],
    clear: &[f32; 4],
    is_previous: bool,
    previous: &[f32; 4],
    ids: &[u32],
    covers: &[i8],
    next_ids: &mut [u32],
    next_covers: &mut [i8],
    list_ids: &mut [u32],
    list_covers: &mut [i8],
    list_flags: &mut [bool],
    list_unmasked: &mut [bool],
    told: &mut [usize; 4],
    bottom: &mut [f32; 4],
) -> u32 {
    // SAFETY: the references are those that the export takes, a slice with its own length; it is proved to keep
    // to them for every value, and nothing of them is held after the call.
    unsafe {
        raw::ffi_work_tile(
            words,
            counts,
            tile,
            row.as_ptr(),
            row.len(),
            layers.as_ptr(),
            layers.len(),
            colors.as_ptr(),
            colors.len(),
            count,
            is_kept,
            kept,
            clear,
            is_previous,
            previous,
            ids.as_ptr(),
            ids.len(),
            covers.as_ptr(),
            covers.len(),
            next_ids.as_mut_ptr(),
            next_ids.len(),
            next_covers.as_mut_ptr(),
            next_covers.len(),
            list_ids.as_mut_ptr(),
            list_ids.len(),
            list_covers.as_mut_ptr(),
            list_covers.len(),
            list_flags.as_mut_ptr(),
            list_flags.len(),
            list_unmasked.as_mut_ptr(),
            list_unmasked.len(),
            told,
            bottom,
        )
    }
}
