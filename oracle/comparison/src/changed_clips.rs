//! W-208 by its smallest histories: two frames of one tile, whose bytes are kept from the first to the second. In the
//! first every layer is changed.

use reference::{
    cpu::RGBA,
    painter::row::Frame,
    plain::{Record, Rgba},
};

use crate::{
    given::Fields,
    scene::{word, Picture, Scene},
};

const RED: Rgba = [1.0, 0.0, 0.0, 1.0];
const CLEAR: Rgba = [0.0, 0.0, 0.0, 1.0];

/// A layer: its span where it is a clip, whether it is a clipped draw, and in each frame whether it is full or covers
/// the right half. All but opaque red draws are clips.
#[derive(Clone, Copy)]
struct Layer {
    span: Option<u32>,
    clipped: u32,
    is_full: [bool; 2],
    /// In the second frame.
    unchanged: u32,
}

const HALF: [bool; 2] = [false; 2];
const FULL: [bool; 2] = [true; 2];

const fn clip(span: u32, is_full: [bool; 2], unchanged: u32) -> Layer {
    Layer { span: Some(span), clipped: 0, is_full, unchanged }
}

const fn draw(clipped: u32, unchanged: u32) -> Layer {
    Layer { span: None, clipped, is_full: FULL, unchanged }
}

/// The histories, with whether the Rust keeps a tile in the second frame that is to be drawn afresh.
pub fn histories() -> [(Scene, bool); 4] {
    [
        // A clip is widened until it is full: it is masked off, and the draw that it cut is full, opaque and unchanged.
        (history(&[clip(1, [false, true], 0), draw(1, 1)]), true),
        // A changed clip that is used, under a layer that hides all below it.
        (history(&[clip(1, HALF, 0), draw(1, 1), draw(0, 1)]), true),
        // A changed clip past whose span everything lies.
        (history(&[clip(0, HALF, 0), draw(0, 1)]), true),
        // An unchanged clip and a changed draw, both under such a layer: the tile is kept.
        (history(&[clip(1, HALF, 1), draw(1, 0), draw(0, 1)]), false),
    ]
}

/// The layers have the ids 1, 2 and 3.
fn history(layers: &[Layer]) -> Scene {
    let pictures = vec![picture(layers, 0, None), picture(layers, 1, Some(CLEAR))];
    Scene { tile_y: 0, from: 0, to: 1, tiles: 1, caches: true, pictures }
}

fn picture(layers: &[Layer], frame: usize, previous_clear: Option<Rgba>) -> Picture {
    let numbered = || (1..).zip(layers);
    let mut words: Vec<u64> = numbered().flat_map(|(id, layer)| outline(id, layer.is_full[frame])).collect();
    words.sort();
    let record = |(id, layer): (u32, &Layer)| Record {
        id,
        rule: 0,
        func: layer.span.is_some().into(),
        span: layer.span.unwrap_or(0),
        clipped: layer.clipped,
        fill: 0,
        mode: 0,
        unchanged: if frame == 0 { 0 } else { layer.unchanged },
        color: if layer.span.is_some() { [0.0; 4] } else { RED },
    };
    let frame = Frame { clear: CLEAR, previous_clear, channels: RGBA };
    Picture { words, records: numbered().map(record).collect(), frame }
}

/// An edge left of tile 0, or in its middle.
fn outline(layer_id: u32, is_full: bool) -> impl Iterator<Item = u64> {
    let (tile_x, local_x) = if is_full { (-1, 3) } else { (0, 8) };
    let fields =
        move |local_y| Fields { layer_id, tile_x, tile_y: 0, local_x, local_y, double_area_multiplier: 32, cover: 16 };
    (0..16).map(move |local_y| word(fields(local_y)))
}
