//! One layer's row of tiles four pixels high (W-213), opened and worked tile by tile: coverages and carries against rows
//! 0 to 3 of the Rust's row at 16, which has no such height; and calls that are refused, on any state.

use reference::{
    cpu::RGBA,
    painter::row::{Frame, Row},
    plain::Record,
    Table,
};

use crate::{
    exports,
    given::Fields,
    library, scene,
    tally::{caught, Kind, Tally},
};

pub fn compare(tally: &mut Tally) {
    tally.random("four high: a layer's row", rows);
    tally.random("four high: a layer's row, any call", any_calls);
}

/// The layer that is walked; the row has others beside it.
const LAYER: u32 = 5;

/// Where a caller stands: tile y, from, to, the next tile, the layer and its rule; and the cover.
#[derive(Clone, Copy, Debug, Eq, PartialEq)]
pub struct LayerState {
    pub words: [u32; 6],
    pub covers: [i8; 4],
}

const UNTOUCHED: LayerState = LayerState { words: [0xABCD_0123; 6], covers: [0x5A; 4] };

/// What an opening is called with, beside its row.
#[derive(Clone, Copy, Debug)]
pub struct Opening {
    pub tile_y: i32,
    pub from: i32,
    pub to: i32,
    pub layer: u32,
    pub rule: u32,
}

pub fn open(call: Opening, row: &[u64], state: &mut LayerState) -> u32 {
    let Opening { tile_y, from, to, layer, rule } = call;
    let LayerState { words, covers } = state;
    unsafe { exports::ffi_gpu_open_layer_row(tile_y, from, to, layer, rule, row.as_ptr(), row.len(), words, covers) }
}

pub fn work(state: &mut LayerState, tile: i32, row: &[u64], plane: &mut [f32]) -> u32 {
    let LayerState { words, covers } = state;
    unsafe { exports::ffi_gpu_work_tile(words, covers, tile, row.as_ptr(), row.len(), plane.as_mut_ptr(), plane.len()) }
}

/// A range of tiles: its number, and how many tiles were worked, why it ended and by which number.
pub fn work_tiles(
    state: &mut LayerState,
    tile: i32,
    tiles: usize,
    row: &[u64],
    planes: &mut [f32],
    done: &mut [usize; 3],
) -> u32 {
    let LayerState { words, covers } = state;
    let (planes_ptr, planes_len) = (planes.as_mut_ptr(), planes.len());
    unsafe {
        exports::ffi_gpu_work_tiles(words, covers, tile, tiles, row.as_ptr(), row.len(), planes_ptr, planes_len, done)
    }
}

/// A row's segments, in the order of their words.
struct Segments {
    fields: Vec<Fields>,
}

impl Segments {
    fn any(kind: &mut Kind, tile_y: i16, tiles: i16) -> Self {
        let random = &mut kind.random;
        let len = random.pick(&[0, 3, 12, 30, 60]);
        let widest = random.pick(&[4, 16, 31]);
        // At times all in one pixel row, so that number 9 is met often.
        let is_heaped = random.once_in(4);
        let one = |_| {
            let layer_id = random.pick(&[LAYER, LAYER, LAYER, 3, 9]);
            let cover = match random.below(4) {
                0 => 16,
                1 => -16,
                _ => random.within(-widest..=widest) as i8,
            };
            // Other layers stay light in each pixel row of a tile.
            let cover = if layer_id == LAYER { cover } else { cover.signum() };
            let (tile_x, local_x, local_y) = (
                random.below(tiles as usize + 2) as i16 - 1,
                random.below(16) as u8,
                if is_heaped { 2 } else { random.below(4) as u8 },
            );
            let double_area_multiplier = random.below(64) as u8;
            Fields { layer_id, tile_x, tile_y, local_x, local_y, double_area_multiplier, cover }
        };
        let mut fields: Vec<Fields> = (0..len).map(one).collect();
        fields.sort_by_key(|fields| (fields.tile_x, fields.layer_id));
        Self { fields }
    }

    fn words(&self) -> Vec<u64> {
        self.fields.iter().map(|&fields| library::gpu_pack(fields).1).collect()
    }

    /// The same, packed at 16 in row 0.
    fn at_sixteen(&self) -> Vec<u64> {
        self.fields.iter().map(|&fields| scene::word(Fields { tile_y: 0, ..fields })).collect()
    }

    /// Covers of the layer in tiles `first` to `last`, in each pixel row, with their absolute values.
    fn sums(&self, first: i32, last: i32) -> [(i32, i32); 4] {
        let mut sums = [(0, 0); 4];
        for fields in self.fields.iter().filter(|fields| fields.layer_id == LAYER) {
            if (first..=last).contains(&fields.tile_x.into()) {
                let (sum, load) = &mut sums[usize::from(fields.local_y)];
                *sum += i32::from(fields.cover);
                *load += i32::from(fields.cover).abs();
            }
        }
        sums
    }
}

/// What the Rust's queue has of the layer; zeros where it has none.
fn carried(row: &Row<'_>) -> [i8; 16] {
    row.queue().iter().find(|carry| carry.id == LAYER).map_or([0; 16], |carry| carry.cover)
}

fn bits(plane: &[f32]) -> Vec<u32> {
    plane.iter().map(|number| number.to_bits()).collect()
}

fn any_plane(len: usize) -> Vec<f32> {
    (0..len).map(|i| -1000.0 - i as f32).collect()
}

fn records(rule: u32) -> [Record; 3] {
    [3, LAYER, 9].map(|id| {
        let color = [0.5, 0.25, 0.75, 0.5];
        Record { id, rule, func: 0, span: 0, clipped: 0, fill: 0, mode: 0, unchanged: 0, color }
    })
}

/// A row that is opened, and its tiles one after the other, with calls between that are turned down.
fn rows(kind: &mut Kind) {
    let random = &mut kind.random;
    let (from, tiles) = (random.below(3) as i32, 1 + random.below(5) as i32);
    let tile_y = random.pick(&[0, 1, 2046, 2047, 8190]);
    let call = Opening { tile_y, from, to: from + tiles, layer: LAYER, rule: random.below(2) as u32 };
    let segments = Segments::any(kind, tile_y as i16, (from + tiles) as i16);
    let row = segments.words();
    let mut state = UNTOUCHED;
    let number = open(call, &row, &mut state);
    let left = segments.sums(-1, from - 1);
    if left.iter().any(|&(_, load)| load > 127) {
        kind.note("opening refused by 9");
        kind.case((number, state) == (9, UNTOUCHED), || format!("{call:?} of {row:x?}: expected 9, {number}"));
        return;
    }
    let words = [tile_y, from, from + tiles, from, LAYER as i32, call.rule as i32].map(|number| number as u32);
    let opened = LayerState { words, covers: left.map(|(sum, _)| sum as i8) };
    kind.case((number, state) == (0, opened), || {
        format!("{call:?} of {row:x?}: expected {opened:?}, {number} {state:?}")
    });
    let table = Table::new(&records(call.rule));
    let at_sixteen = segments.at_sixteen();
    let mut rust = Row::open(0, from as usize, (from + tiles) as usize, &at_sixteen, &table);
    let rust_covers = carried(&rust);
    kind.case(rust_covers[..4] == state.covers, || {
        format!("{call:?} of {row:x?}: the Rust opens with {rust_covers:?}, the library with {:?}", state.covers)
    });
    a_range(kind, state, from, &row);
    for tile in from..from + tiles {
        turned_down(kind, &state, tile, &row);
        if !tile_of_row(kind, &mut state, tile, &row, &segments, &mut rust, call) {
            return;
        }
    }
    turned_down(kind, &state, from + tiles, &row);
}

/// A range beside the single calls of its tiles: any number of tiles and of planes, from the next tile or another.
fn a_range(kind: &mut Kind, start: LayerState, next: i32, row: &[u64]) {
    let random = &mut kind.random;
    let (tile, tiles) = (next + random.pick(&[0, 0, 0, 0, 1, -1]), random.below(8));
    let old = any_plane(random.below(6) * 64 + random.pick(&[0, 0, 1, 63]));
    // The single calls, one after the other.
    let (mut single, mut expected) = (start, old.clone());
    let (mut worked, mut end, mut first) = (0, [0, 0], 0);
    while worked < tiles {
        let here = tile + worked as i32;
        let room = expected.len() / 64;
        if worked > 0 && here as u32 >= single.words[2] {
            end = [1, 0];
            break;
        }
        if worked > 0 && worked >= room {
            end = [2, 0];
            break;
        }
        let start = (worked * 64).min(expected.len());
        let number = work(&mut single, here, row, &mut expected[start..]);
        if number != 0 {
            first = if worked == 0 { number } else { 0 };
            end = [3, number as usize];
            break;
        }
        worked += 1;
    }
    const LEFT: [usize; 3] = [77; 3];
    let (mut state, mut planes, mut done) = (start, old.clone(), LEFT);
    let number = work_tiles(&mut state, tile, tiles, row, &mut planes, &mut done);
    let told = if first == 0 { [worked, end[0], end[1]] } else { LEFT };
    kind.note(match (first, end[0]) {
        (0, 0) => "range: all that were asked for",
        (0, 1) => "range: the row's end",
        (0, 2) => "range: no plane is left",
        (0, _) => "range: the next would be refused",
        (1, _) => "range refused by 1",
        (2, _) => "range refused by 2",
        _ => "range refused by 9",
    });
    let same = number == first && done == told && state == single && bits(&planes) == bits(&expected);
    kind.case(same, || {
        format!("{tiles} tiles from {tile} of {start:?} of {row:x?}: expected {first} {told:?}, {number} {done:?}")
    });
}

/// The next tile on both sides; false where number 9 ends the row.
fn tile_of_row(
    kind: &mut Kind,
    state: &mut LayerState,
    tile: i32,
    row: &[u64],
    segments: &Segments,
    rust: &mut Row<'_>,
    call: Opening,
) -> bool {
    let before = *state;
    let len = kind.random.pick(&[64, 64, 64, 70]);
    let old = any_plane(len);
    let mut plane = old.clone();
    let number = work(state, tile, row, &mut plane);
    let own = segments.sums(tile, tile);
    if before.covers.iter().zip(own).any(|(&cover, (_, load))| i32::from(cover).abs() + load > 127) {
        kind.note("work refused by 9");
        kind.case(number == 9 && *state == before && bits(&plane) == bits(&old), || {
            format!("{call:?}, tile {tile} of {row:x?}: expected 9, {number}")
        });
        return false;
    }
    let frame = Frame { clear: [0.0; 4], previous_clear: None, channels: RGBA };
    let painted = caught(|| {
        rust.work(tile as usize, &frame, None);
        rust.paint(LAYER)
    });
    let Some(painted) = painted else {
        kind.case(false, || format!("{call:?}, tile {tile} of {row:x?}: the Rust panics"));
        return false;
    };
    let covers = carried(rust);
    let mut words = before.words;
    words[3] += 1;
    kind.note(if covers[..4] == [0; 4] { "worked, nothing handed on" } else { "worked, handed on" });
    let same = number == 0
        && state.words == words
        && covers[..4] == state.covers
        && bits(&plane[..64]) == bits(&painted.plane[..64])
        && bits(&plane[64..]) == bits(&old[64..]);
    kind.case(same, || {
        format!("{call:?}, tile {tile} of {row:x?}: the Rust {covers:?}, the library {number} {state:?}")
    });
    true
}

/// A call that is refused leaves the state and the plane: `next` is the tile that is due.
fn turned_down(kind: &mut Kind, state: &LayerState, next: i32, row: &[u64]) {
    let [tile_y, _, to, ..] = state.words;
    let random = &mut kind.random;
    let (tile, len, descends) =
        (next + random.pick(&[0, 0, 1, -1, 4096]), random.pick(&[63, 64, 64, 0]), random.once_in(2));
    // A word of another tile y stands behind the row.
    let other: Vec<u64> = row.iter().copied().chain([((u64::from(tile_y) + 1) ^ 1) << 51]).collect();
    let lent = if descends { &other[..] } else { row };
    let expected = if len < 64 {
        1
    } else if tile != next || next as u32 >= to {
        2
    } else if descends {
        3
    } else {
        return;
    };
    let (mut after, old) = (*state, any_plane(len));
    let mut plane = old.clone();
    let number = work(&mut after, tile, lent, &mut plane);
    kind.note(["", "work refused by 1", "work refused by 2", "work refused by 3"][expected as usize]);
    kind.case(number == expected && after == *state && bits(&plane) == bits(&old), || {
        format!("tile {tile} with a plane of {len} from {state:?} of {lent:x?}: expected {expected}, {number}")
    });
}

/// Openings and works with any numbers: the lowest refusal that applies, and nothing else changed.
fn any_calls(kind: &mut Kind) {
    let random = &mut kind.random;
    let edges = [i32::MIN, -1, 0, 1, 2046, 2047, 4094, 4095, 4096, 8190, 8191, i32::MAX];
    let (tile_y, from, to) = (random.pick(&edges), random.pick(&edges), random.pick(&edges));
    let (layer, rule) =
        (random.pick(&[LAYER, LAYER, LAYER, 2_097_151, 2_097_152, u32::MAX]), random.pick(&[0, 1, 1, 2, 7]));
    let call = Opening { tile_y, from, to, layer, rule };
    let is_bad = !(0..=8190).contains(&tile_y) || from < 0 || to < from || to > 4095;
    let row_y = if is_bad || random.once_in(3) { 7 } else { tile_y as i16 };
    let segments = Segments::any(kind, row_y, 4);
    let row = segments.words();
    let expected = if is_bad {
        2
    } else if !row.is_empty() && i32::from(row_y) != tile_y {
        3
    } else if layer > 2_097_151 || rule > 1 {
        4
    } else if layer == LAYER && segments.sums(-1, from - 1).iter().any(|&(_, load)| load > 127) {
        9
    } else {
        0
    };
    let mut state = UNTOUCHED;
    let number = open(call, &row, &mut state);
    kind.note(match expected {
        0 => "opened",
        2 => "opening refused by 2",
        3 => "opening refused by 3",
        4 => "opening refused by 4",
        _ => "opening refused by 9",
    });
    kind.case(number == expected && (number == 0 || state == UNTOUCHED), || {
        format!("{call:?} of {row:x?}: expected {expected}, {number} {state:?}")
    });
    stray_state(kind);
}

/// A state that no opening gives is refused by 2.
fn stray_state(kind: &mut Kind) {
    let random = &mut kind.random;
    let edges = [0, 1, 4094, 4095, 4096, 8190, 8191, u32::MAX];
    let words = [(); 4].map(|()| random.pick(&edges));
    let [tile_y, from, to, next] = words;
    let state = LayerState { words: [tile_y, from, to, next, LAYER, random.below(2) as u32], covers: [7; 4] };
    let is_stray = tile_y > 8190 || to > 4095 || next < from || next >= to;
    let expected = if is_stray { 2 } else { 0 };
    let (mut after, mut plane) = (state, any_plane(64));
    let number = work(&mut after, next as i32, &[], &mut plane);
    kind.note(if is_stray { "stray state refused by 2" } else { "state worked" });
    kind.case(number == expected && (number == 0) == (after != state), || {
        format!("{state:?}: expected {expected}, {number} {after:?}")
    });
}
