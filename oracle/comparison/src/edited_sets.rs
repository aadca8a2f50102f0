//! Kept sets of segments that come and go (W-207). The Rust has no edits: which are refused, and what a set holds after
//! each, is worked out from document 02 once more; and after each the Rust paints the held segments from scratch.

use reference::{
    painter::{self, recorder, row},
    plain::{Record, RULES},
};

use crate::{
    covers::{any_cover, is_heavy},
    given::{Fields, LAYER_LIMIT},
    random::Random,
    scene::word,
    set_calls::{self, KeptSet, Place},
    tally::{caught, Kind, Tally},
};

pub fn compare(tally: &mut Tally) {
    tally.random("edited sets, random edits", edited);
    tally.kind("edited sets, every order of up to five edits", orders);
    tally.random("edited sets, any memory", any_memory);
}

/// Numbers of d that a set needs.
const AREAS: usize = 256;

#[derive(Clone, Copy, Debug)]
enum Edit {
    In(u64),
    Out(u64),
}

// ---- what is due of a set, from the held segments alone

fn local_x(word: u64) -> usize {
    (word >> 16 & 15) as usize
}

fn local_y(word: u64) -> usize {
    (word >> 12 & 15) as usize
}

fn cover_of(word: u64) -> i16 {
    ((word & 63) as i16 + 32) % 64 - 32
}

fn double_area(word: u64) -> i16 {
    (word >> 6 & 63) as i16 * cover_of(word)
}

fn is_of(place: Place, word: u64) -> bool {
    let layer_id = (word >> 20 & u64::from(LAYER_LIMIT)) as u32;
    place == Place { layer_id, tile_x: (word >> 41 & 4095) as i16 - 1, tile_y: (word >> 53) as i16 - 1 }
}

/// A set that holds these segments, in memory that was lent as `before`: all numbers by the formulas of document 01.
fn fresh(before: &KeptSet, place: Place, cover: [i8; 16], held: &[u64]) -> KeptSet {
    let mut set = before.clone();
    (set.layer, set.tile) = (place.layer_id, [place.tile_x, place.tile_y]);
    set.slots[..held.len()].copy_from_slice(held);
    set.count = held.len();
    for (y, &incoming) in cover.iter().enumerate() {
        let covers = |before: usize| -> i16 {
            let left = held.iter().filter(|&&word| local_y(word) == y && local_x(word) < before);
            i16::from(incoming) + left.map(|&word| cover_of(word)).sum::<i16>()
        };
        for column in 0..16 {
            let own = held.iter().filter(|&&word| (local_x(word), local_y(word)) == (column, y));
            set.areas[column * 16 + y] = 32 * covers(column) + own.map(|&word| double_area(word)).sum::<i16>();
        }
        set.carry[y] = covers(16) as i8;
        let load: u16 =
            held.iter().filter(|&&word| local_y(word) == y).map(|&word| cover_of(word).unsigned_abs()).sum();
        set.loads[y] = u16::from(incoming.unsigned_abs()) + load;
    }
    set
}

/// The Rust's coverages of the held segments, by both rules, are those of the set's d, and its carry is the set's.
fn is_as_painted(set: &KeptSet, cover: [i8; 16]) -> bool {
    let held = &set.slots[..set.count];
    let by_rule = |rule: usize| {
        let rust = caught(|| recorder::paint(held, cover, RULES[rule]).plane);
        let ours = set.areas[..AREAS].iter().map(|&d| painter::coverage(d.into(), RULES[rule]).to_bits());
        rust.is_some_and(|plane| ours.eq((0..256).map(|k| plane[k % 16 * 16 + k / 16].to_bits())))
    };
    let (id, rule) = (set.layer, 0);
    let record = Record { id, rule, func: 0, span: 0, clipped: 0, fill: 0, mode: 0, unchanged: 0, color: [0.0; 4] };
    let carry = caught(|| row::carry(held, Some(cover), &record));
    // A carry of zeros is dropped.
    by_rule(0) && by_rule(1) && carry.map(|carry| carry.unwrap_or([0; 16])) == Some(set.carry)
}

/// A set that was begun, with what the edits so far have left.
#[derive(Clone)]
struct Editor {
    place: Place,
    cover: [i8; 16],
    set: KeptSet,
}

impl Editor {
    fn held(&self) -> Vec<u64> {
        self.set.slots[..self.set.count].to_vec()
    }

    /// The held segments after an edit, or the number of the refusal.
    fn due(&self, edit: Edit, areas: usize) -> Result<Vec<u64>, u32> {
        let (Edit::In(word) | Edit::Out(word)) = edit;
        if areas < AREAS {
            return Err(1);
        }
        if !is_of(self.place, word) {
            return Err(3);
        }
        let mut held = self.held();
        match edit {
            Edit::In(_) => {
                held.push(word);
                let refusal = if is_heavy(&held, self.cover) { Some(9) } else { None };
                refusal.or((self.set.slots.len() < held.len()).then_some(13)).map_or(Ok(held), Err)
            }
            Edit::Out(_) => {
                let place = held.iter().position(|&one| one == word).ok_or(12u32)?;
                held.swap_remove(place);
                Ok(held)
            }
        }
    }

    /// One edit, at times with d lent too short; the set is then what it left.
    fn edit(&mut self, kind: &mut Kind, edit: Edit, areas: usize) {
        let mut before = self.set.clone();
        before.areas.truncate(areas);
        let due = self.due(edit, before.areas.len());
        let number = due.as_ref().map_or_else(|&number| number, |_| 0);
        let wanted = due.map_or_else(|_| before.clone(), |held| fresh(&before, self.place, self.cover, &held));
        kind.note(told(edit, number));
        let mut after = before.clone();
        let got = call(edit, &mut after);
        let same = (got, &after) == (number, &wanted) && (number > 0 || is_as_painted(&after, self.cover));
        kind.case(same, || {
            format!("{edit:x?} on {before:x?}: expected {number}, {wanted:x?}, the library {got}, {after:x?}")
        });
        if number == 0 {
            self.set = wanted;
        }
    }
}

fn call(edit: Edit, set: &mut KeptSet) -> u32 {
    match edit {
        Edit::In(word) => set_calls::take_in(word, set),
        Edit::Out(word) => set_calls::let_out(word, set),
    }
}

fn told(edit: Edit, number: u32) -> &'static str {
    match (edit, number) {
        (Edit::In(_), 0) => "taken in",
        (Edit::In(_), 1) => "in, refused by 1",
        (Edit::In(_), 3) => "in, refused by 3",
        (Edit::In(_), 9) => "in, refused by 9",
        (Edit::In(_), _) => "in, refused by 13",
        (Edit::Out(_), 0) => "let out",
        (Edit::Out(_), 1) => "out, refused by 1",
        (Edit::Out(_), 3) => "out, refused by 3",
        (Edit::Out(_), _) => "out, refused by 12",
    }
}

/// A beginning from a part; the set that was begun.
fn begin(kind: &mut Kind, before: &KeptSet, place: Place, cover: [i8; 16], part: &[u64]) -> Option<Editor> {
    let number = if before.areas.len() < AREAS {
        1
    } else if !part.iter().all(|&word| is_of(place, word)) {
        3
    } else if is_heavy(part, cover) {
        9
    } else if before.slots.len() < part.len() {
        13
    } else {
        0
    };
    kind.note(match number {
        0 => "begun",
        1 => "beginning, refused by 1",
        3 => "beginning, refused by 3",
        9 => "beginning, refused by 9",
        _ => "beginning, refused by 13",
    });
    let wanted = if number == 0 { fresh(before, place, cover, part) } else { before.clone() };
    let mut after = before.clone();
    let got = set_calls::begin(place, cover, part, &mut after);
    let same = (got, &after) == (number, &wanted) && (number > 0 || is_as_painted(&after, cover));
    kind.case(same, || {
        format!("{part:x?} of {place:?} on {cover:?}, {before:x?}: expected {number}, {wanted:x?}, the library {got}, {after:x?}")
    });
    (number == 0).then_some(Editor { place, cover, set: wanted })
}

// ---- the cases

fn any_place(random: &mut Random) -> Place {
    Place {
        layer_id: random.pick(&[0, 1, 5, LAYER_LIMIT]),
        tile_x: random.pick(&[-1, 0, 2, 4094]),
        tile_y: random.pick(&[-1, 0, 2046]),
    }
}

/// A set in memory of which each number is another than what belongs there.
fn any_set(random: &mut Random, slots: usize, areas: usize) -> KeptSet {
    KeptSet {
        layer: random.word() as u32,
        tile: [(); 2].map(|()| random.word() as i16),
        carry: [(); 16].map(|()| random.word() as i8),
        loads: [(); 16].map(|()| random.word() as u16),
        count: random.word() as usize,
        slots: (0..slots).map(|_| random.word()).collect(),
        areas: (0..areas).map(|_| random.word() as i16).collect(),
    }
}

fn any_word(random: &mut Random, place: Place, widest: i64) -> u64 {
    let rows = random.pick(&[2, 16]);
    word(Fields {
        layer_id: place.layer_id,
        tile_x: place.tile_x,
        tile_y: place.tile_y,
        local_x: random.below(16) as u8,
        local_y: random.below(rows) as u8,
        double_area_multiplier: random.below(64) as u8,
        cover: if random.once_in(20) { -32 } else { random.within(-widest..=widest) as i8 },
    })
}

/// A word of another layer or tile: one of its upper 44 bits is another.
fn foreign(random: &mut Random, word: u64) -> u64 {
    word ^ 1 << (20 + random.below(44))
}

fn any_part(random: &mut Random, place: Place, widest: i64) -> Vec<u64> {
    let len = random.pick(&[0, 0, 1, 3, 12]);
    let mut part: Vec<u64> = (0..len).map(|_| any_word(random, place, widest)).collect();
    if len > 0 && random.once_in(12) {
        let at = random.below(len);
        part[at] = foreign(random, part[at]);
    }
    part
}

fn any_edit(random: &mut Random, editor: &Editor, widest: i64) -> Edit {
    let held = editor.held();
    let mut word = any_word(random, editor.place, widest);
    if !held.is_empty() && random.once_in(2) {
        word = random.pick(&held);
    }
    // A segment that no held one equals, or only nearly.
    if random.once_in(8) {
        word ^= 1 << random.below(20);
    }
    if random.once_in(16) {
        word = foreign(random, word);
    }
    if random.once_in(2) {
        Edit::In(word)
    } else {
        Edit::Out(word)
    }
}

fn edited(kind: &mut Kind) {
    let random = &mut kind.random;
    let slots = random.pick(&[0, 1, 2, 5, 20]);
    let areas = match random.below(12) {
        0 => random.pick(&[0, 255]),
        1 => 300,
        _ => AREAS,
    };
    let before = any_set(random, slots, areas);
    let widest = random.pick(&[1, 4, 16, 31]);
    let place = any_place(random);
    let part = any_part(random, place, widest);
    let cover = match random.below(4) {
        0 => [0; 16],
        1 => [random.pick(&[16, -16, 119, 120, 127, -127, -128]); 16],
        2 => any_cover(random),
        _ => any_cover(random).map(|byte| byte / 4),
    };
    let Some(mut editor) = begin(kind, &before, place, cover, &part) else { return };
    for _ in 0..kind.random.below(12) {
        // Longer slots, as a caller lends them that needs more.
        if kind.random.once_in(10) {
            let slot = kind.random.word();
            editor.set.slots.push(slot);
        }
        let edit = any_edit(&mut kind.random, &editor, widest);
        let areas = if kind.random.once_in(20) { AREAS - 1 } else { usize::MAX };
        editor.edit(kind, edit, areas);
    }
}

/// Every order of up to five edits by four words: two of one pixel, one with which the row's covers are too large, and
/// one of another layer; in two slots.
fn orders(kind: &mut Kind) {
    let before = any_set(&mut kind.random, 2, AREAS + 3);
    let place = Place { layer_id: 5, tile_x: 2, tile_y: 0 };
    let placed = |local_x, double_area_multiplier, cover| {
        word(Fields { layer_id: 5, tile_x: 2, tile_y: 0, local_x, local_y: 0, double_area_multiplier, cover })
    };
    let words = [placed(3, 32, -16), placed(3, 8, -16), placed(0, 63, -31), placed(3, 32, -16) ^ 1 << 20];
    if let Some(editor) = begin(kind, &before, place, [66; 16], &[]) {
        each_order(kind, &editor, &words, 5);
    }
}

fn each_order(kind: &mut Kind, editor: &Editor, words: &[u64], left: usize) {
    if left == 0 {
        return;
    }
    for edit in words.iter().flat_map(|&word| [Edit::In(word), Edit::Out(word)]) {
        let mut next = editor.clone();
        next.edit(kind, edit, usize::MAX);
        each_order(kind, &next, words, left - 1);
    }
}

/// One edit of memory that no beginning left: d and the carry wrap, a load never falls below 0, and of a layer or a tile
/// that no segment has every edit is refused by 3.
fn any_memory(kind: &mut Kind) {
    let random = &mut kind.random;
    let (slots, areas) = (random.below(6), random.pick(&[255, 256, 256, 256, 256, 260]));
    let mut before = any_set(random, slots, areas);
    let place = any_place(random);
    let words: Vec<u64> = (0..3).map(|_| any_word(random, place, 31)).collect();
    // In some memory one of the three is any number, or the first one past those that segments have.
    let part = random.below(30);
    if part != 0 {
        before.layer = place.layer_id;
    } else if random.once_in(2) {
        before.layer = LAYER_LIMIT + 1;
    }
    for (at, own) in [(0, place.tile_x), (1, place.tile_y)] {
        if part != at + 1 {
            before.tile[at] = own;
        } else if random.once_in(2) {
            before.tile[at] = random.pick(&[-2, 2047, 4095, i16::MIN, i16::MAX]);
        }
    }
    before.slots.iter_mut().for_each(|slot| *slot = random.pick(&words));
    before.count = random.pick(&[0, 1, slots, slots + 1, usize::MAX]);
    if random.once_in(2) {
        before.loads = before.loads.map(|load| load % 128);
    }
    let word = if random.once_in(10) { foreign(random, words[0]) } else { random.pick(&words) };
    let edit = if random.once_in(2) { Edit::In(word) } else { Edit::Out(word) };
    let (number, wanted) = wrapped(&before, edit).map_or_else(|number| (number, before.clone()), |set| (0, set));
    kind.note(told(edit, number));
    let mut after = before.clone();
    let got = call(edit, &mut after);
    kind.case((got, &after) == (number, &wanted), || {
        format!("{edit:x?} on {before:x?}: expected {number}, {wanted:x?}, the library {got}, {after:x?}")
    });
}

fn wrapped(before: &KeptSet, edit: Edit) -> Result<KeptSet, u32> {
    let (Edit::In(word) | Edit::Out(word)) = edit;
    let (x, y, cover) = (local_x(word), local_y(word), cover_of(word));
    let held = before.count.min(before.slots.len());
    let mut set = before.clone();
    if set.areas.len() < AREAS {
        return Err(1);
    }
    if !is_of(Place { layer_id: set.layer, tile_x: set.tile[0], tile_y: set.tile[1] }, word) {
        return Err(3);
    }
    let sign = match edit {
        Edit::In(_) => {
            let load = u32::from(set.loads[y]) + u32::from(cover.unsigned_abs());
            if load > 127 {
                return Err(9);
            }
            if set.slots.len() <= set.count {
                return Err(13);
            }
            set.slots[before.count] = word;
            (set.count, set.loads[y]) = (before.count + 1, load as u16);
            1
        }
        Edit::Out(_) => {
            let place = set.slots[..held].iter().position(|&one| one == word).ok_or(12u32)?;
            set.slots[place] = set.slots[held - 1];
            (set.count, set.loads[y]) = (held - 1, set.loads[y].saturating_sub(cover.unsigned_abs()));
            -1
        }
    };
    set.carry[y] = set.carry[y].wrapping_add((sign * cover) as i8);
    for column in x..16 {
        let amount = if column == x { double_area(word) } else { 32 * cover };
        set.areas[column * 16 + y] = set.areas[column * 16 + y].wrapping_add(sign * amount);
    }
    Ok(set)
}
