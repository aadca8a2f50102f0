//! The real painter, with a record of what each painted layer covers and which octets it blends.

use super::super::*;
use super::cover_of;
use crate::{plain::Painted, utils::simd::reach::lanes};

/// Passes every call on to the painter that it holds.
pub(crate) struct Recorder {
    pub painter: Painter,
    pub painted: Vec<Painted>,
}

impl Recorder {
    pub fn new() -> Self {
        Self { painter: Painter::new(), painted: Vec::new() }
    }
}

impl LayerPainter for Recorder {
    fn clear_cells(&mut self) {
        self.painter.clear_cells();
    }

    fn acc_segment(&mut self, segment: PixelSegment<{ consts::cpu::TILE_WIDTH }, { consts::cpu::TILE_HEIGHT }>) {
        self.painter.acc_segment(segment);
    }

    fn acc_cover(&mut self, cover: Cover) {
        self.painter.acc_cover(cover);
    }

    fn clear(&mut self, color: Color) {
        self.painter.clear(color);
    }

    fn paint_layer(&mut self, tile_x: usize, tile_y: usize, layer_id: u32, props: &Props, apply_clip: bool) -> Cover {
        let mark = mark(&self.painter, tile_x, tile_y, layer_id, props, apply_clip);
        let plane = plane(&self.painter, tile_x, tile_y, layer_id, props);
        let cover = self.painter.paint_layer(tile_x, tile_y, layer_id, props, apply_clip);
        let clip = self.painter.clip.map(|(_, last)| last);
        if let (Func::Clip(_), Some((mask, _))) = (&props.func, self.painter.clip) {
            assert_eq!(bits(&exchanged(&mask)), bits(&plane), "a clip layer writes its whole mask");
        }
        self.painted.push(Painted { id: layer_id, plane, mark, clip, needs_clip: apply_clip });
        cover
    }
}

/// One layer painted alone, from its segments of a tile and its incoming cover, by a draw that no clip cuts.
pub fn paint(words: &[u64], cover: [i8; 16], fill_rule: FillRule) -> Painted {
    let mut recorder = Recorder::new();
    recorder.clear_cells();
    for &word in words {
        recorder.acc_segment(crate::pixel_segment::of_word(word));
    }
    recorder.acc_cover(cover_of(cover));
    recorder.paint_layer(0, 0, 0, &Props { fill_rule, func: Func::Draw(Style::default()) }, false);
    recorder.painted.pop().unwrap()
}

/// The layer's coverages: those that it would leave as a clip, in a painter with no clip.
fn plane(painter: &Painter, tile_x: usize, tile_y: usize, layer_id: u32, props: &Props) -> [f32; 256] {
    let mut probe = copy_of(painter);
    probe.clip = None;
    let as_clip = Props { fill_rule: props.fill_rule, func: Func::Clip(0) };
    probe.paint_layer(tile_x, tile_y, layer_id, &as_clip, false);
    exchanged(&probe.clip.expect("a clip layer leaves a clip").0)
}

/// The octets that the layer blends: painted once more with a red that is not a number, they turn so, and no others do.
fn mark(painter: &Painter, tile_x: usize, tile_y: usize, layer_id: u32, props: &Props, apply_clip: bool) -> u32 {
    let Func::Draw(style) = &props.func else {
        return 0;
    };
    let mut probe = copy_of(painter);
    probe.clear(Color { r: 0.0, g: 0.0, b: 0.0, a: 1.0 });
    let telltale = Color { r: f32::NAN, g: 0.0, b: 0.0, a: 1.0 };
    let style = Style { is_clipped: style.is_clipped, fill: Fill::Solid(telltale), blend_mode: BlendMode::Over };
    let props = Props { fill_rule: props.fill_rule, func: Func::Draw(style) };
    probe.paint_layer(tile_x, tile_y, layer_id, &props, apply_clip);
    let mut mark = 0;
    for (octet, reds) in probe.red.iter().enumerate() {
        let told = lanes(*reds).map(f32::is_nan);
        assert!(told.iter().all(|&nan| nan == told[0]), "an octet is blended whole");
        mark |= u32::from(told[0]) << octet;
    }
    mark
}

fn copy_of(painter: &Painter) -> Painter {
    Painter {
        doubled_areas: painter.doubled_areas,
        covers: painter.covers,
        clip: painter.clip,
        red: painter.red,
        green: painter.green,
        blue: painter.blue,
        alpha: painter.alpha,
        srgb: painter.srgb,
    }
}

/// The Rust's plane, which it stores by columns, with its two places exchanged: the number of a pixel stands at row × 16 + column, as in the planes
/// that it is compared with (W-209). Octet 2 × column + h has the rows 8h to 8h + 7.
pub(super) fn exchanged(octets: &[f32x8; 32]) -> [f32; 256] {
    let mut plane = [0.0; 256];
    for (octet, eight) in octets.iter().enumerate() {
        let (column, half) = (octet / 2, octet % 2);
        for (lane, number) in lanes(*eight).into_iter().enumerate() {
            plane[(8 * half + lane) * 16 + column] = number;
        }
    }
    plane
}

fn bits(plane: &[f32; 256]) -> Vec<u32> {
    plane.iter().map(|value| value.to_bits()).collect()
}
