//! A tile row of a figure as the job text of the row program.

use std::{fmt::Write, ops::Range};

use tile_rows::{BlendMode, FillRule, Func, PixelSegment};

use super::{Figure, Layer};

/// What the row program reads: 512 lines of segments, 2,048 segments, 64 layers, 65,536 bytes.
const LINES: usize = 512;

/// The job text of some tiles of a row, where it is no longer than a job may be. What lies left of them is in it by its
/// covers alone, each layer's and pixel row's sum, in the tile before the first.
pub fn job_text(figure: &Figure, row: i16, tiles: Range<i32>, segments: &[PixelSegment]) -> Result<String, String> {
    let is_due = |segment: &&PixelSegment| tiles.contains(&i32::from(segment.tile_x()));
    let due: Vec<PixelSegment> = segments.iter().filter(is_due).copied().collect();
    let lines = [left_lines(figure, tiles.start, segments), segment_lines(&due)].concat();
    if lines.len() > LINES {
        let many = lines.len();
        return Err(format!(
            "these tiles of row {row} have {many} lines of segments, more than the {LINES} of a job text: name fewer tiles"
        ));
    }
    let Figure { tiles: count, layers, .. } = figure;
    let mut text = format!("row tiles from to\n{row} {count} {} {}\n", tiles.start, tiles.end);
    text += "layer rule clip span clipped fill mode alpha\n";
    layers.iter().for_each(|layer| text += &record(layer));
    text += "tile_x layer x y rows mult cover\n";
    for [tile_x, layer, x, y, rows, mult, cover] in lines {
        writeln!(text, "{tile_x} {layer} {x} {y} {rows} {mult} {cover}").expect("a string takes every text");
    }
    Ok(text)
}

fn record(layer: &Layer) -> String {
    let rule = u32::from(layer.rule == FillRule::EvenOdd);
    let id = layer.id;
    match layer.func {
        Func::Clip { span } => format!("{id} {rule} 1 {span} 0 0 0 0\n"),
        Func::Draw(style) => {
            let alpha = (style.fill.color().a * 256.0) as u32;
            let (clipped, fill) = (u32::from(style.is_clipped), style.fill.code());
            format!("{id} {rule} 0 0 {clipped} {fill} {} {alpha}\n", BlendMode::code(style.blend_mode))
        }
    }
}

/// The covers left of a tile, as lines in the tile before it: of each layer whose carry would not be empty.
fn left_lines(figure: &Figure, first: i32, segments: &[PixelSegment]) -> Vec<[i32; 7]> {
    let mut lines = Vec::new();
    for layer in &figure.layers {
        let mut covers = [0i32; 16];
        let is_left = |segment: &&PixelSegment| segment.layer_id() == layer.id && i32::from(segment.tile_x()) < first;
        let left = segments.iter().filter(is_left);
        left.for_each(|segment| covers[usize::from(segment.local_y())] += i32::from(segment.cover()));
        let is_empty = |&cover: &i32| cover == 0 || layer.rule == FillRule::EvenOdd && cover % 32 == 0;
        if covers.iter().all(is_empty) {
            continue;
        }
        for (y, mut cover) in (0..).zip(covers) {
            while cover != 0 {
                let one = cover.clamp(-31, 31);
                lines.push([first - 1, layer.id as i32, 0, y, 1, 0, one]);
                cover -= one;
            }
        }
    }
    joined(lines)
}

/// A line for each run of segments of one tile, layer and column, one below the other, that agree in both numbers.
pub fn segment_lines(segments: &[PixelSegment]) -> Vec<[i32; 7]> {
    let fields = |segment: &PixelSegment| {
        let fields = segment.fields();
        let [x, y, mult] = [fields.local_x, fields.local_y, fields.double_area_multiplier].map(i32::from);
        [i32::from(fields.tile_x), fields.layer_id as i32, x, y, 1, mult, i32::from(fields.cover)]
    };
    joined(segments.iter().map(fields).collect())
}

/// Lines that stand one below the other and agree in all else, joined.
fn joined(mut each: Vec<[i32; 7]>) -> Vec<[i32; 7]> {
    each.sort_unstable_by_key(|&[tile_x, layer, x, y, _, mult, cover]| [tile_x, layer, x, mult, cover, y]);
    let mut lines: Vec<[i32; 7]> = Vec::new();
    for [tile_x, layer, x, y, _, mult, cover] in each {
        match lines.last_mut() {
            Some([a, b, c, first, rows, d, e])
                if [*a, *b, *c, *d, *e] == [tile_x, layer, x, mult, cover] && *first + *rows == y =>
            {
                *rows += 1;
            }
            _ => lines.push([tile_x, layer, x, y, 1, mult, cover]),
        }
    }
    lines
}
