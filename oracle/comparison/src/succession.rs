//! A work on a tile against its listing and then its deciding, on the same memory (W-206).

use reference::plain::Cached;

use crate::{
    calls::{any_call, damage, deciding_refusal, refusal},
    given::{Memory, Work},
    layers::lent,
    library,
    memory::{any_memory, any_queue, any_state, input, told, REFUSED},
    random::Random,
    scene::{any_scene, Picture, Scene},
    tally::{Kind, Tally},
    tiles::{any_crowd, arrangements},
    two_calls,
};

pub fn compare(tally: &mut Tally) {
    tally.random("succession, single calls", single);
    tally.random("succession, crowds of layers", |kind| {
        let (call, memory) = any_crowd(&mut kind.random);
        check(kind, &call, &memory);
    });
    tally.kind("succession, every arrangement of up to three layers", |kind| {
        (0..=3).for_each(|layers| arrangements(kind, layers, check))
    });
    tally.random("succession, rows over several frames, decided in any order", rows);
}

fn single(kind: &mut Kind) {
    let random = &mut kind.random;
    let (mut call, mut memory) = any_call(random);
    if random.once_in(2) {
        memory.kept = random.word().to_le_bytes();
        memory.kept[0] %= 5;
    }
    if random.once_in(2) {
        damage(random, &mut call, &mut memory);
    }
    check(kind, &call, &memory);
}

/// Where no number up to 6 applies to a work, it answers and leaves what the two calls do.
fn check(kind: &mut Kind, call: &Work, before: &Memory) {
    let expected = refusal(call, before);
    if (1..=6).contains(&expected) {
        kind.note("not compared: refused by 1 to 6");
        return;
    }
    kind.note(REFUSED[expected as usize]);
    let (mut whole, mut parts) = (before.clone(), before.clone());
    let number = library::work_tile(call, &mut whole);
    let listing = two_calls::list_tile(call, &mut parts);
    let n = parts.told[2];
    let deciding = if listing == 0 { two_calls::decide_tile(call, n, &mut parts) } else { 0 };
    let same = number == listing && deciding == 0 && parts == whole;
    kind.case(same, || {
        let seen = told(&parts, &whole);
        format!("{}: work {number}, listing {listing}, deciding {deciding}, {seen}", input(call, before))
    });
}

/// One tile of a row: its call, and the memory before and after the work.
struct Tile {
    call: Work,
    before: Memory,
    after: Memory,
}

fn rows(kind: &mut Kind) {
    let scene = any_scene(&mut kind.random);
    let mut cached = vec![Cached::default(); scene.tiles];
    for picture in &scene.pictures {
        let tiles = worked(&mut kind.random, &scene, picture, &cached);
        let mut lists = all_listed(kind, &tiles);
        decide_all(kind, &tiles, &mut lists);
        for (tile, kept) in tiles.iter().zip(&mut cached[scene.from..scene.to]) {
            *kept = Cached(tile.after.kept);
            if tile.after.told[0] == 1 && library::settle(scene.caches, kept, [1, 2, 3, 4]).is_err() {
                kind.case(false, || format!("{}: a solid tile is not settled", input(&tile.call, &tile.before)));
            }
        }
    }
}

/// A row tile after tile, each by one call.
fn worked(random: &mut Random, scene: &Scene, picture: &Picture, cached: &[Cached]) -> Vec<Tile> {
    let (row, table) = (&picture.words, lent(&picture.records));
    let (mut queue, mut state) = (any_queue(random, false), any_state(random));
    let [tile_y, from, to] = [scene.tile_y, scene.from, scene.to].map(|end| end as i32);
    assert_eq!(library::open_tile_row(tile_y, from, to, row, &table, &mut queue, &mut state), 0);
    let mut tiles = Vec::new();
    for tile in from..to {
        let (clear, previous) = (picture.frame.clear, picture.frame.previous_clear);
        let (row, table) = (row.clone(), table.clone());
        let call = Work { tile, row, table, is_kept: scene.caches, clear, previous, queue };
        let before = any_memory(random, state, cached[tile as usize]);
        let mut after = before.clone();
        assert_eq!(library::work_tile(&call, &mut after), 0, "a scene meets no condition");
        (queue, state) = (after.next.clone(), after.state);
        tiles.push(Tile { call, before, after });
    }
    tiles
}

/// The same row by listings alone: what each leaves. State and queue are those that the listing before it left.
fn all_listed(kind: &mut Kind, tiles: &[Tile]) -> Vec<Memory> {
    let mut lists: Vec<Memory> = Vec::new();
    for tile in tiles {
        let (mut call, mut memory) = (tile.call.clone(), tile.before.clone());
        if let Some(last) = lists.last() {
            (call.queue, memory.state) = (last.next.clone(), last.state);
        }
        let number = two_calls::list_tile(&call, &mut memory);
        let wanted = undecided(tile);
        kind.note("listed");
        kind.case(number == 0 && memory == wanted, || {
            format!("{}: listing {number}, {}", input(&call, &tile.before), told(&memory, &wanted))
        });
        lists.push(memory);
    }
    lists
}

/// What a work leaves, without what it decides.
fn undecided(tile: &Tile) -> Memory {
    let Memory { kept, shown, told: [decision, first, _, skipped], bottom, .. } = tile.before.clone();
    let mut after = Memory { kept, shown, bottom, ..tile.after.clone() };
    after.told = [decision, first, after.told[2], skipped];
    after
}

/// The kept lists decided in any order, at times after a refused try: then all is as after the works.
fn decide_all(kind: &mut Kind, tiles: &[Tile], lists: &mut [Memory]) {
    let mut order: Vec<usize> = (0..tiles.len()).collect();
    for i in (1..order.len()).rev() {
        order.swap(i, kind.random.below(i + 1));
    }
    for i in order {
        let (tile, memory) = (&tiles[i], &mut lists[i]);
        let n = memory.told[2];
        if kind.random.once_in(4) {
            let before = memory.clone();
            let expected = deciding_refusal(&tile.call, usize::MAX, memory);
            let number = two_calls::decide_tile(&tile.call, usize::MAX, memory);
            kind.note("a try with too many entries");
            kind.case(number == expected && *memory == before, || {
                format!("{}: deciding {number}, {}", input(&tile.call, &tile.before), told(memory, &before))
            });
        }
        let number = two_calls::decide_tile(&tile.call, n, memory);
        kind.note("decided");
        kind.case(number == 0 && *memory == tile.after, || {
            format!("{}: deciding {number}, {}", input(&tile.call, &tile.before), told(memory, &tile.after))
        });
    }
}
