//! Cached tiles: every tag, any bytes.

use reference::{painter, plain::Cached};

use crate::{
    library,
    random::Random,
    tally::{Kind, Tally},
};

pub fn compare(tally: &mut Tally) {
    tally.random("CachedTile, updates in a row", updates);
    tally.kind("CachedTile, every tag", tags);
    tally.random("settling", settle);
}

pub fn any_tile(random: &mut Random) -> Cached {
    let mut bytes = random.word().to_le_bytes();
    if !random.once_in(4) {
        bytes[0] %= 4;
    }
    Cached(bytes)
}

pub fn any_count(random: &mut Random) -> Option<u32> {
    let edges = [0, 1, 255, 256, 65_535, 65_536, 0xFF_FFFF, 0x100_0000, 0x100_0001, u32::MAX];
    match random.below(4) {
        0 => None,
        1 => Some(random.pick(&edges)),
        _ => Some(random.word() as u32),
    }
}

pub fn any_color(random: &mut Random) -> Option<[u8; 4]> {
    let color = (random.word() as u32).to_le_bytes();
    (!random.once_in(3)).then_some(color)
}

/// One update on both sides: what was kept before, what is kept now, and all bytes.
fn update(kind: &mut Kind, cached: &mut Cached, count: Option<Option<u32>>, color: Option<Option<[u8; 4]>>) {
    let before = *cached;
    let tile = painter::tile_of(before);
    let mut rust = (None, None);
    let mut ours = (None, None);
    if let Some(count) = count {
        rust.0 = tile.update_layer_count(count);
        ours.0 = library::update_layer_count(cached, count);
    }
    if let Some(color) = color {
        rust.1 = tile.update_solid_color(color);
        ours.1 = library::update_solid_color(cached, color);
    }
    let rust = (rust, tile.layer_count(), tile.solid_color(), painter::cached_of(&tile));
    let ours = (ours, library::layer_count(*cached), library::solid_color(*cached), *cached);
    kind.case(ours == rust, || {
        format!("{before:?}, count {count:?}, colour {color:?}: the Rust {rust:?}, the library {ours:?}")
    });
}

fn updates(kind: &mut Kind) {
    let mut cached = any_tile(&mut kind.random);
    for _ in 0..4 {
        if kind.random.once_in(2) {
            let count = any_count(&mut kind.random);
            update(kind, &mut cached, Some(count), None);
        } else {
            let color = any_color(&mut kind.random);
            update(kind, &mut cached, None, Some(color));
        }
    }
}

fn tags(kind: &mut Kind) {
    for tag in 0..=255 {
        for (count, color) in [
            (None, None),
            (Some(None), None),
            (Some(Some(0x0102_0304)), None),
            (None, Some(None)),
            (None, Some(Some([9, 8, 7, 6]))),
        ] {
            update(kind, &mut Cached([tag, 3, 2, 1, 4, 5, 6, 7]), count, color);
        }
    }
}

/// The second call of a solid tile. A tag above 3 is refused by 6, where a tile is given.
fn settle(kind: &mut Kind) {
    let random = &mut kind.random;
    let color = [(); 4].map(|()| random.below(5) as f32 / 4.0);
    let display = painter::display_bytes(color);
    let mut cached = any_tile(random);
    if random.once_in(2) {
        cached.0[4..].copy_from_slice(&display);
    }
    if random.once_in(4) {
        cached.0[4 + random.below(4)] ^= 1;
    }
    let given = !random.once_in(5);
    let expected = if given && cached.0[0] > 3 {
        (Err(6), cached)
    } else {
        let (_, is_written, after) = painter::settle(given.then_some(cached), color);
        (Ok(is_written), after.unwrap_or(cached))
    };
    let mut after = cached;
    let ours = (library::settle(given, &mut after, display), after);
    kind.note(match expected.0 {
        Err(_) => "refused by 6",
        Ok(true) => "write",
        Ok(false) => "keep",
    });
    kind.case(ours == expected, || {
        format!("{cached:?}, given {given}, {display:?}: expected {expected:?}, the library {ours:?}")
    });
}
