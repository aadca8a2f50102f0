//! Random histories of four tiles through up to four frames, and random pairs of frames of one tile. A layer is called
//! unchanged only where it stood the same in the frame before, whichever tiles were worked then.

use reference::plain::Rgba;

use crate::{
    kept_histories::{clip, column, draw, Layer, Shot, BLACK, BLUE, GREEN, RED},
    random::Random,
    scene::any_color,
};

/// How many tiles a random history has.
pub const TILES: usize = 4;

/// Layers have ids below it.
const IDS: u32 = 5;

const FAINT: Rgba = [0.0014, 0.25, 0.75, 1.0];
const NOTHING: Rgba = [1.0, 0.0, 1.0, 0.0];

/// Over, multiply, screen; hue, saturation, colour, luminosity.
const MODES: [u32; 12] = [0, 0, 0, 0, 0, 0, 1, 2, 12, 13, 14, 15];

/// With alpha, not a number, without an end, and two that are equal and have other bits.
const CLEARS: [Rgba; 8] = [
    [0.0, 0.0, 0.0, 0.35],
    [1.0, 1.0, 1.0, 0.0],
    [f32::NAN, 0.0, 0.0, 1.0],
    [0.0, f32::INFINITY, 0.0, 1.0],
    [0.0, 0.0, 0.5, f32::NEG_INFINITY],
    [0.5, 0.5, 0.5, f32::NAN],
    [0.0, 0.25, 0.0, 1.0],
    [-0.0, 0.25, 0.0, 1.0],
];

/// A clear colour: mostly black.
fn any_clear(random: &mut Random) -> Rgba {
    match random.below(8) {
        0..4 => BLACK,
        4 => any_color(random),
        _ => random.pick(&CLEARS),
    }
}

/// The clear colour of the next frame: mostly the last one.
fn next_clear(random: &mut Random, last: Rgba) -> Rgba {
    if random.once_in(4) {
        any_clear(random)
    } else {
        last
    }
}

/// Any kind of layer, by either rule.
fn any_layer(random: &mut Random, id: u32) -> Layer {
    let mut layer = if random.once_in(4) {
        clip(id, random.below(4) as u32)
    } else {
        let any = any_color(random);
        draw(id, random.pick(&[RED, RED, GREEN, BLUE, FAINT, NOTHING, any]))
    };
    layer.record.rule = u32::from(random.once_in(3));
    if layer.record.func == 0 {
        layer.record.clipped = u32::from(random.once_in(3));
        layer.record.mode = random.pick(&MODES);
        layer.record.fill = if random.once_in(8) { 1 + random.below(2) as u32 } else { 0 };
    }
    layer.words = any_words(random, id, layer.record.rule);
    layer
}

/// From the left of tile 0 on, or from the middle of tile 0 or 1, up to the end, to tile 0 or to tile 2; at times by
/// half, in some pixel rows alone, or, by EvenOdd, twice or three times around. No carry by NonZero is above 16.
fn any_words(random: &mut Random, id: u32, rule: u32) -> Vec<u64> {
    let (tile, x) = random.pick(&[(-1, 0), (-1, 0), (-1, 0), (-1, 0), (0, 8), (1, 8)]);
    let cover = random.pick(&[16, 16, 16, 16, 16, -16, 8]);
    let mut words = column(id, tile, x, cover);
    if rule == 1 && random.once_in(3) {
        words = words.repeat(2 + random.below(2));
    }
    if random.once_in(10) {
        words.truncate(8);
    }
    if random.once_in(5) {
        let (tile, x) = random.pick(&[(0, 12), (2, 8)]);
        words.extend(column(id, tile, x, -cover));
    }
    words
}

/// The next frame: some layers go, come or become others; all are called changed.
fn next_layers(random: &mut Random, last: &[Layer]) -> Vec<Layer> {
    let mut layers = Vec::new();
    for id in 0..IDS {
        let stood = last.iter().find(|layer| layer.record.id == id);
        layers.push(match stood {
            Some(layer) if !random.once_in(5) => layer.clone(),
            Some(_) if random.once_in(2) => any_layer(random, id),
            None if random.once_in(3) => any_layer(random, id),
            _ => continue,
        });
    }
    layers
}

/// Who stood the same in the frame before is called unchanged.
fn flagged(layers: &[Layer], last: &[Layer]) -> Vec<Layer> {
    let stood = |layer: &Layer| last.iter().any(|other| other.is_same(layer));
    let flag = |layer: &Layer| if stood(layer) { layer.clone().unchanged() } else { layer.clone() };
    layers.iter().map(flag).collect()
}

/// The tiles of a frame: mostly all, at times without the first ones or the last.
fn any_tiles(random: &mut Random) -> (usize, usize) {
    let from = if random.once_in(4) { random.below(TILES) } else { 0 };
    let to = if random.once_in(4) { from + 1 + random.below(TILES - from) } else { TILES };
    (from, to)
}

/// One to four frames. A layer that stood the same is at times called changed all the same.
pub fn any_history(random: &mut Random) -> Vec<Shot> {
    let mut last = Vec::new();
    let (mut tiles, mut clear) = (any_tiles(random), any_clear(random));
    let mut shots = Vec::new();
    for _ in 0..1 + random.below(4) {
        let now = next_layers(random, &last);
        let mut layers = flagged(&now, &last);
        layers.iter_mut().for_each(|layer| layer.record.unchanged &= u32::from(!random.once_in(20)));
        shots.push(Shot { layers, tiles, clear });
        last = now;
        clear = next_clear(random, clear);
        if random.once_in(2) {
            tiles = any_tiles(random);
        }
    }
    shots
}

/// Two frames of tile 0.
pub fn any_pair(random: &mut Random) -> [Shot; 2] {
    let before = (0..3).fold(Vec::new(), |last, _| next_layers(random, &last));
    let now = next_layers(random, &before);
    let (clear, flagged) = (any_clear(random), flagged(&now, &before));
    let next = next_clear(random, clear);
    [Shot { layers: before, tiles: (0, 1), clear }, Shot { layers: flagged, tiles: (0, 1), clear: next }]
}
