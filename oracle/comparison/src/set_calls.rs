//! A kept set of segments, and the three calls on it: each gives the number of the refusal, and the set holds what the
//! call left.

use crate::exports;

/// The layer and the tile that a set is begun for.
#[derive(Clone, Copy, Debug, Eq, PartialEq)]
pub struct Place {
    pub layer_id: u32,
    pub tile_x: i16,
    pub tile_y: i16,
}

/// A set as it is lent: its layer and its tile, its numbers, its slots and its d.
#[derive(Clone, Debug, Eq, PartialEq)]
pub struct KeptSet {
    pub layer: u32,
    pub tile: [i16; 2],
    pub carry: [i8; 16],
    pub loads: [u16; 16],
    pub count: usize,
    pub slots: Vec<u64>,
    pub areas: Vec<i16>,
}

pub fn begin(place: Place, cover: [i8; 16], part: &[u64], set: &mut KeptSet) -> u32 {
    let KeptSet { layer, tile, carry, loads, count, slots, areas } = set;
    unsafe {
        exports::ffi_begin_set(
            place.layer_id,
            place.tile_x,
            place.tile_y,
            &cover,
            part.as_ptr(),
            part.len(),
            layer,
            tile,
            carry,
            loads,
            count,
            slots.as_mut_ptr(),
            slots.len(),
            areas.as_mut_ptr(),
            areas.len(),
        )
    }
}

#[inline]
pub fn take_in(word: u64, set: &mut KeptSet) -> u32 {
    let KeptSet { layer, tile, carry, loads, count, slots, areas } = set;
    unsafe {
        exports::ffi_take_in(
            word,
            layer,
            tile,
            carry,
            loads,
            count,
            slots.as_mut_ptr(),
            slots.len(),
            areas.as_mut_ptr(),
            areas.len(),
        )
    }
}

#[inline]
pub fn let_out(word: u64, set: &mut KeptSet) -> u32 {
    let KeptSet { layer, tile, carry, loads, count, slots, areas } = set;
    unsafe {
        exports::ffi_let_out(
            word,
            layer,
            tile,
            carry,
            loads,
            count,
            slots.as_mut_ptr(),
            slots.len(),
            areas.as_mut_ptr(),
            areas.len(),
        )
    }
}
