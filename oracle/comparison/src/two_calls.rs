//! Listing and deciding, the two calls that a tile's work can be made as, on the memory of a work: how many layers are
//! listed stands in its place of `told`, what a deciding tells in the other three.

use crate::{
    exports,
    given::{Memory, Work},
};

/// The number of the refusal; the memory holds what the call left.
pub fn list_tile(work: &Work, memory: &mut Memory) -> u32 {
    let Work { tile, row, table, queue, .. } = work;
    let Memory { state, next, list, flags, told, .. } = memory;
    unsafe {
        exports::ffi_list_tile(
            &mut state.words,
            &mut state.counts,
            *tile,
            row.as_ptr(),
            row.len(),
            table.layers.as_ptr(),
            table.layers.len(),
            table.colors.as_ptr(),
            table.colors.len(),
            table.count,
            queue.ids.as_ptr(),
            queue.ids.len(),
            queue.covers.as_ptr(),
            queue.covers.len(),
            next.ids.as_mut_ptr(),
            next.ids.len(),
            next.covers.as_mut_ptr(),
            next.covers.len(),
            list.ids.as_mut_ptr(),
            list.ids.len(),
            list.covers.as_mut_ptr(),
            list.covers.len(),
            flags.as_mut_ptr(),
            flags.len(),
            &mut told[2],
        )
    }
}

/// The same for the first n entries of the memory's list. Of the work only the table, the clear colours and whether a
/// cached tile is given are read.
pub fn decide_tile(work: &Work, n: usize, memory: &mut Memory) -> u32 {
    let Work { table, is_kept, clear, previous, .. } = work;
    let Memory { kept, list, flags, shown, told, bottom, .. } = memory;
    let mut color = bottom.map(f32::from_bits);
    let mut numbers = [told[0], told[1], told[3]];
    let number = unsafe {
        exports::ffi_decide_tile(
            list.ids.as_ptr(),
            list.ids.len(),
            list.covers.as_ptr(),
            list.covers.len(),
            flags.as_ptr(),
            flags.len(),
            n,
            table.layers.as_ptr(),
            table.layers.len(),
            table.colors.as_ptr(),
            table.colors.len(),
            table.count,
            *is_kept,
            kept,
            clear,
            previous.is_some(),
            &previous.unwrap_or([7.0; 4]),
            shown.as_mut_ptr(),
            shown.len(),
            &mut numbers,
            &mut color,
        )
    };
    [told[0], told[1], told[3]] = numbers;
    *bottom = color.map(f32::to_bits);
    number
}
