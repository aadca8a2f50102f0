//! Which layer record stands (W-212). The Rust has no such call: here it is worked out from document 02 once more.

use std::collections::{BTreeMap, BTreeSet};

use reference::plain::{Record, Rgba};

use crate::{
    calls::any_call,
    given::{LentTable, LAYER_LIMIT},
    layers::records,
    library,
    openings::{self, Opening},
    random::Random,
    scene::{any_color, any_scene},
    tally::{Kind, Tally},
    tiles,
};

pub fn compare(tally: &mut Tally) {
    tally.random("standing records", any_sent);
    tally.random("standing records, many", many_sent);
    tally.kind("standing records, every choice of up to four", choices);
    tally.kind("standing records, ends of ranges", ends);
    tally.random("standing records, rows opened with the written table", opened);
    tally.random("standing records, tiles worked with the written table", worked);
}

const PROPERTIES: u32 = 0;
const WITHDRAWAL: u32 = 1;

/// The highest rule, func, span, clipped, fill, mode and unchanged.
const LIMITS: [u32; 7] = [1, 1, LAYER_LIMIT, 1, 2, 15, 1];

/// A record as it is sent.
#[derive(Clone, Copy, Debug)]
struct Sent {
    id: u32,
    revision: u32,
    kind: u32,
    properties: [u32; 7],
    color: Rgba,
}

/// What `stand` is given: ten words and four floats a record.
#[derive(Clone, Debug)]
struct Call {
    records: Vec<u32>,
    colors: Vec<f32>,
}

impl Call {
    fn new(sent: &[Sent]) -> Self {
        let words = |one: &Sent| [vec![one.id, one.revision, one.kind], one.properties.to_vec()].concat();
        let (records, colors) =
            (sent.iter().flat_map(words).collect(), sent.iter().flat_map(|one| one.color).collect());
        Self { records, colors }
    }

    /// The records that are there, each with its ten words and its four floats.
    fn sent(&self) -> Vec<Sent> {
        let one = |(words, color): (&[u32], &[f32])| Sent {
            id: words[0],
            revision: words[1],
            kind: words[2],
            properties: words[3..].try_into().unwrap(),
            color: color.try_into().unwrap(),
        };
        self.records.chunks_exact(10).zip(self.colors.chunks_exact(4)).map(one).collect()
    }

    fn is_same(&self, other: &Self) -> bool {
        let bits = |call: &Self| call.colors.iter().map(|number| number.to_bits()).collect::<Vec<_>>();
        (&self.records, bits(self)) == (&other.records, bits(other))
    }
}

/// The number of the refusal, or the records that stand, by their layers. `room` is how many entries the table has.
fn standing(call: &Call, room: usize) -> Result<BTreeMap<u32, Sent>, u32> {
    let sent = call.sent();
    if !sent.iter().all(is_in_range) {
        return Err(4);
    }
    let revisions: BTreeSet<(u32, u32)> = sent.iter().map(|one| (one.id, one.revision)).collect();
    if revisions.len() < sent.len() {
        return Err(15);
    }
    let mut ascending = sent.clone();
    ascending.sort_by_key(|one| one.revision);
    // Of each layer the last, which has the highest revision.
    let mut highest: BTreeMap<u32, Sent> = ascending.into_iter().map(|one| (one.id, one)).collect();
    highest.retain(|_, one| one.kind == PROPERTIES);
    if room < highest.len() {
        return Err(1);
    }
    Ok(highest)
}

/// Of a withdrawal only the id is judged.
fn is_in_range(sent: &Sent) -> bool {
    let in_range = sent.properties.iter().zip(LIMITS).all(|(&word, limit)| word <= limit);
    sent.id <= LAYER_LIMIT && (sent.kind == WITHDRAWAL || sent.kind == PROPERTIES && in_range)
}

/// The table that the standing records leave in lent memory: theirs in front, and what there was behind them.
fn written(before: &LentTable, standing: &BTreeMap<u32, Sent>) -> LentTable {
    let mut table = before.clone();
    for (i, one) in standing.values().enumerate() {
        table.layers[8 * i] = one.id;
        table.layers[8 * i + 1..8 * i + 8].copy_from_slice(&one.properties);
        table.colors[4 * i..4 * i + 4].copy_from_slice(&one.color);
    }
    table.count = standing.len();
    table
}

fn bits(table: &LentTable) -> (&[u32], Vec<u32>, usize) {
    (&table.layers, table.colors.iter().map(|number| number.to_bits()).collect(), table.count)
}

/// One call; after a refusal every number must be what it was. The table that it leaves.
fn check(kind: &mut Kind, call: &Call, before: &LentTable) -> Option<LentTable> {
    let room = (before.layers.len() / 8).min(before.colors.len() / 4);
    let (expected, wanted) = match standing(call, room) {
        Ok(standing) => (0, written(before, &standing)),
        Err(number) => (number, before.clone()),
    };
    kind.note(match expected {
        0 if wanted.count == 0 => "accepted, no layer stands",
        0 => "accepted",
        1 => "refused by 1",
        4 => "refused by 4",
        _ => "refused by 15",
    });
    let (lent, mut after) = (call.clone(), before.clone());
    let number = library::stand(&lent.records, &lent.colors, &mut after);
    let same = number == expected && bits(&after) == bits(&wanted) && lent.is_same(call);
    kind.case(same, || {
        format!("{call:?}, room {room}: expected {expected}, {wanted:?}, the library {number}, {after:?}")
    });
    (same && expected == 0).then_some(after)
}

/// A table of so many entries, at times with a part of one more, each number another than what belongs there. Its count
/// stands for the number that the call is lent for its answer.
fn any_table(random: &mut Random, words: usize, colors: usize) -> LentTable {
    let (words, colors) = (8 * words + random.below(8), 4 * colors + random.below(4));
    LentTable {
        layers: (0..words).map(|_| random.word() as u32).collect(),
        colors: (0..colors).map(|_| f32::from_bits(random.word() as u32)).collect(),
        count: random.word() as usize,
    }
}

/// Few layers and few revisions, so that records meet; most are in range.
fn any_record(random: &mut Random, ids: &[u32], revisions: &[u32]) -> Sent {
    let mut one = Sent {
        id: random.pick(ids),
        revision: random.pick(revisions),
        kind: u32::from(random.once_in(3)),
        properties: LIMITS.map(|limit| random.below(limit as usize + 1) as u32),
        color: any_color(random),
    };
    if random.once_in(4) {
        one.color = [(); 4].map(|()| f32::from_bits(random.word() as u32));
    }
    if random.once_in(10) {
        let at = random.below(7);
        one.properties[at] = LIMITS[at];
    }
    if one.kind == WITHDRAWAL && random.once_in(3) {
        one.properties = one.properties.map(|_| random.word() as u32);
    }
    one
}

/// One of a record's nine numbers that have a range, and the highest that it may be: the properties, the id, the kind.
fn ranged(one: &mut Sent, at: usize) -> (&mut u32, u32) {
    match at {
        7 => (&mut one.id, LAYER_LIMIT),
        8 => (&mut one.kind, WITHDRAWAL),
        _ => (&mut one.properties[at], LIMITS[at]),
    }
}

fn any_sent(kind: &mut Kind) {
    let random = &mut kind.random;
    let few = [0, 1, 2, 3, LAYER_LIMIT];
    let many: Vec<u32> = (0..40).map(|_| random.below(1 << 21) as u32).collect();
    let ids = if random.once_in(2) { &few[..] } else { &many[..] };
    let any: Vec<u32> = (0..40).map(|_| random.word() as u32).collect();
    let revisions = if random.once_in(2) { &[0, 1, 7, 8, u32::MAX - 1, u32::MAX] } else { &any[..] };
    let most = random.pick(&[3, 8, 30]);
    let mut sent = Vec::new();
    for _ in 0..random.below(most) {
        let one = any_record(random, ids, revisions);
        let is_twin = |other: &Sent| (other.id, other.revision) == (one.id, one.revision);
        if !sent.iter().any(is_twin) {
            sent.push(one);
        }
    }
    if !sent.is_empty() && random.once_in(6) {
        let Sent { id, revision, .. } = random.pick(&sent);
        sent.push(any_record(random, &[id], &[revision]));
    }
    if !sent.is_empty() && random.once_in(4) {
        let at = random.below(sent.len());
        let (number, limit) = ranged(&mut sent[at], random.below(9));
        *number = random.pick(&[limit, limit + 1, limit + 1, u32::MAX]);
    }
    let mut call = Call::new(&sent);
    shorten(random, &mut call);
    let stand = standing(&call, usize::MAX).map_or(3, |standing| standing.len());
    let mut room = || if random.once_in(10) { stand.saturating_sub(1) } else { stand + random.below(3) };
    let (words, colors) = (room(), room());
    let table = any_table(random, words, colors);
    check(kind, &call, &table);
}

/// More records than a pass for each would do for: around 128 and around the blocks of the walk by keys; in any order,
/// sorted by layer and revision, and sorted but for two that are exchanged.
fn many_sent(kind: &mut Kind) {
    let random = &mut kind.random;
    let count = random.pick(&[126, 127, 128, 129, 500, 1_023, 1_024, 1_025, 2_048, 2_500]);
    let layers = random.pick(&[1, 3, 40, 2_000]);
    let mut sent: Vec<Sent> = (0..count)
        .map(|red| plain(random.below(layers) as u32, random.word() as u32, u32::from(random.once_in(5)), red))
        .collect();
    let (one, other) = (random.below(count), random.below(count));
    match random.below(3) {
        0 => sent.sort_by_key(|one| (one.id, one.revision)),
        1 => {
            sent.sort_by_key(|one| (one.id, one.revision));
            sent.swap(one, other);
        }
        _ => (),
    }
    if random.once_in(6) {
        let Sent { id, revision, .. } = sent[one];
        sent[other] = plain(id, revision, 0, 0);
    }
    let call = Call::new(&sent);
    let stand = standing(&call, usize::MAX).map_or(3, |standing| standing.len());
    let room = if random.once_in(10) { stand.saturating_sub(1) } else { stand };
    let table = any_table(random, room, room);
    check(kind, &call, &table);
}

/// At times a part of a record behind them, a part less, or more words or colours than belong together.
fn shorten(random: &mut Random, call: &mut Call) {
    match random.below(24) {
        0 => call.records.truncate(call.records.len().saturating_sub(1)),
        1 => call.colors.truncate(call.colors.len().saturating_sub(1)),
        2 => call.records.extend([u32::MAX; 9]),
        3 => call.records.extend([u32::MAX; 13]),
        4 => call.colors.extend([f32::NAN; 7]),
        5 => call.records.truncate(random.below(call.records.len() + 1)),
        6 => call.colors.truncate(random.below(call.colors.len() + 1)),
        _ => (),
    }
}

/// A record that is in range, told from others by its colour.
fn plain(id: u32, revision: u32, kind: u32, red: usize) -> Sent {
    Sent { id, revision, kind, properties: [0; 7], color: [red as f32, 0.0, 0.5, 1.0] }
}

/// Every choice of up to four records of two layers, three revisions and both kinds, in every order.
fn choices(kind: &mut Kind) {
    for len in 0..=4 {
        for number in 0..12usize.pow(len) {
            let way = |at: u32| (number / 12usize.pow(at) % 12) as u32;
            let one = |at| plain(1 + way(at) % 2, way(at) / 2 % 3, way(at) / 6, at as usize);
            each_room(kind, &(0..len).map(one).collect::<Vec<_>>());
        }
    }
}

/// Every number of a record at the end of its range and past it, alone and between twins: 4 is judged before 15, and 15
/// before 1.
fn ends(kind: &mut Kind) {
    for (at, past, sort) in (0..36).map(|i| (i / 4, i as u32 / 2 % 2, i as u32 % 2)) {
        let mut one = plain(3, u32::MAX, sort, 1);
        let (number, limit) = ranged(&mut one, at);
        *number = limit + past;
        each_room(kind, &[one]);
        each_room(kind, &[plain(2, 5, PROPERTIES, 2), one, plain(2, 5, PROPERTIES, 3)]);
    }
}

/// With room for one layer less than stand, for as many, and for one more.
fn each_room(kind: &mut Kind, sent: &[Sent]) {
    let call = Call::new(sent);
    let stand = standing(&call, usize::MAX).map_or(0, |standing| standing.len());
    for room in stand.saturating_sub(1)..=stand + 1 {
        let table = any_table(&mut kind.random, room, room);
        check(kind, &call, &table);
    }
}

/// Records of which these stand: each as it is, some of them also with lower revisions, and other layers withdrawn.
fn sent_of(random: &mut Random, records: &[Record]) -> Vec<Sent> {
    let mut sent = Vec::new();
    for record in records {
        let Record { id, rule, func, span, clipped, fill, mode, unchanged, color } = *record;
        let revision = random.pick(&[3, 9, u32::MAX]);
        let properties = [rule, func, span, clipped, fill, mode, unchanged];
        sent.push(Sent { id, revision, kind: PROPERTIES, properties, color });
        for lower in 0..random.below(4) as u32 {
            sent.push(any_record(random, &[id], &[lower]));
        }
        if records.iter().all(|other| other.id != id + 1) && random.once_in(2) {
            sent.push(plain(id + 1, 0, PROPERTIES, 1));
            sent.push(plain(id + 1, 1, WITHDRAWAL, 2));
        }
    }
    for i in (1..sent.len()).rev() {
        sent.swap(i, random.below(i + 1));
    }
    sent
}

/// The table that is written of such records, in lent memory with some room behind it.
fn table_of(kind: &mut Kind, records: &[Record]) -> Option<LentTable> {
    let call = Call::new(&sent_of(&mut kind.random, records));
    let room = records.len() + kind.random.below(3);
    let before = any_table(&mut kind.random, room, room);
    let table = check(kind, &call, &before)?;
    kind.case(table.count == records.len(), || format!("{call:?}: {} stand, not {}", table.count, records.len()));
    Some(table)
}

fn opened(kind: &mut Kind) {
    let scene = any_scene(&mut kind.random);
    let picture = &scene.pictures[0];
    if let Some(table) = table_of(kind, &picture.records) {
        let [tile_y, from, to] = [scene.tile_y, scene.from, scene.to].map(|end| end as i32);
        openings::check(kind, &Opening { tile_y, from, to, row: picture.words.clone(), table }, false);
    }
}

fn worked(kind: &mut Kind) {
    let (mut call, memory) = any_call(&mut kind.random);
    if let Some(table) = table_of(kind, &records(&call.table)) {
        call.table = table;
        tiles::check(kind, &call, &memory);
    }
}
