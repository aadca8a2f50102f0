//! The small pictures of the page, as SVG: covers as bars, coverages, marks, arrows.

use std::{collections::BTreeMap, fmt::Write};

use tile_rows::{Cover, Mark, PixelSegment, Plane};

use super::colors;

/// A colour as it is drawn: one that is pale on white is drawn darker, with the same hue.
pub fn ink(color: [u8; 3]) -> String {
    let light = |[r, g, b]: [u8; 3]| 2 * u32::from(r) + 7 * u32::from(g) + u32::from(b);
    let mut drawn = color;
    while light(drawn) > 1_350 {
        drawn = drawn.map(|channel| (u32::from(channel) * 9 / 10) as u8);
    }
    colors::hex(drawn)
}

/// A cover as words: runs of pixel rows with the same number.
pub fn cover_in_words(cover: &Cover) -> String {
    if cover.0.iter().all(|&row| row == cover.0[0]) {
        return format!("{} in each row", cover.0[0]);
    }
    let mut words: Vec<String> = Vec::new();
    let mut start = 0;
    while start < 16 {
        let end = (start..16).find(|&row| cover.0[row] != cover.0[start]).unwrap_or(16);
        let rows = if end - start == 1 { format!("row {start}") } else { format!("rows {start}–{}", end - 1) };
        words.push(format!("{rows}: {}", cover.0[start]));
        start = end;
    }
    words.join(", ")
}

/// A cover in words where they are short, else a small table of its 16 numbers.
pub fn cover_told(cover: &Cover) -> String {
    let words = cover_in_words(cover);
    if words.matches(',').count() < 3 {
        return format!("<small>{words}</small>");
    }
    let line = |row: usize| {
        let one = |row: usize| format!("<th>{row}</th><td>{}</td>", cover.0[row]);
        format!("<tr>{}{}</tr>", one(row), one(row + 8))
    };
    format!(
        "<table class=\"covers\"><caption>cover of each pixel row</caption>{}</table>",
        (0..8).map(line).collect::<String>()
    )
}

/// A bar for each pixel row, from the middle to the right where the cover is above 0, to the left where it is below.
/// `widest` is the number that fills half the width.
pub fn bars(cover: &Cover, widest: i32, color: &str) -> String {
    let mut svg = format!(
        "<svg class=\"bars\" viewBox=\"-33 0 66 74\" role=\"img\" aria-label=\"{0}\"><title>{0}</title>",
        cover_in_words(cover)
    );
    for (row, &number) in cover.0.iter().enumerate() {
        let length = f64::from(number) / f64::from(widest) * 32.0;
        let (x, y) = (length.min(0.0), 4 * row);
        let width = length.abs();
        write!(svg, "<rect x=\"{x:.1}\" y=\"{y}.5\" width=\"{width:.1}\" height=\"3\" fill=\"{color}\"/>").unwrap();
    }
    let scale = format!(
        "<text x=\"-32\" y=\"73\">-{widest}</text><text x=\"0\" y=\"73\" text-anchor=\"middle\">0</text>\
         <text x=\"32\" y=\"73\" text-anchor=\"end\">{widest}</text>"
    );
    svg + "<path class=\"axis\" d=\"M0 0V64M-32 62V66M32 62V66\"/>" + &scale + "</svg>"
}

/// An arrow to the right.
pub fn arrow(color: &str, told: &str) -> String {
    format!(
        "<svg class=\"arrow\" viewBox=\"0 0 24 12\" role=\"img\" aria-label=\"{told}\"><title>{told}</title>\
         <path d=\"M0 6H17\" stroke=\"{color}\" stroke-width=\"3\"/>\
         <path d=\"M15 0L24 6L15 12Z\" fill=\"{color}\"/></svg>"
    )
}

/// Coverages as 16 × 16 pixels, and a frame around each pixel that has a segment of its own. What the page's script works
/// d from stands in it: the segments, the cover from the left, the rule; and the weights that it must come to.
pub fn coverage(plane: &Plane, part: &[PixelSegment], color: &str, label: &str, cover: &Cover, rule: &str) -> String {
    let (runs, weights) = runs_of(plane);
    let incoming = cover.0.map(|row| row.to_string()).join(" ");
    let mut svg = format!(
        "<svg class=\"plane\" viewBox=\"0 0 16 16\" tabindex=\"0\" data-weights=\"{weights}\" data-in=\"{incoming}\" \
         data-rule=\"{rule}\" data-part=\"{}\" role=\"img\" aria-label=\"{label}\">",
        part.iter().map(numbers_of).collect::<Vec<_>>().join(";")
    );
    for (weight, path) in &runs {
        write!(svg, "<path fill=\"{color}\" fill-opacity=\"{:.4}\" d=\"{path}\"/>", f64::from(*weight) / 512.0)
            .unwrap();
    }
    svg += "<path class=\"grid\" d=\"M4 0V16M8 0V16M12 0V16M0 4H16M0 8H16M0 12H16\"/>";
    let mut own: Vec<(u8, u8)> = part.iter().map(|segment| (segment.local_x(), segment.local_y())).collect();
    own.sort_unstable();
    own.dedup();
    for (x, y) in own {
        write!(svg, "<rect class=\"own\" x=\"{x}.1\" y=\"{y}.1\" width=\".8\" height=\".8\"/>").unwrap();
    }
    svg + "</svg>"
}

fn numbers_of(segment: &PixelSegment) -> String {
    let fields = segment.fields();
    format!("{} {} {} {}", fields.local_x, fields.local_y, fields.double_area_multiplier, fields.cover)
}

/// The runs of each row as a path for each weight (coverage × 512), and all weights row by row.
fn runs_of(plane: &Plane) -> (BTreeMap<u32, String>, String) {
    let mut runs: BTreeMap<u32, String> = BTreeMap::new();
    let mut weights = Vec::new();
    for (y, row) in plane.rows().enumerate() {
        let row = row.map(|coverage| (coverage * 512.0) as u32);
        weights.push(row.map(|weight| weight.to_string()).join(" "));
        let mut start = 0;
        while start < 16 {
            let end = (start..16).find(|&x| row[x] != row[start]).unwrap_or(16);
            if row[start] > 0 {
                write!(runs.entry(row[start]).or_default(), "M{start} {y}h{}v1H{start}z", end - start).unwrap();
            }
            start = end;
        }
    }
    (runs, weights.join(" "))
}

/// The 32 octets of a mark as they lie in the tile: 16 columns of two halves.
pub fn octets(mark: Mark, color: &str) -> String {
    let mut svg = String::from("<svg class=\"octets\" viewBox=\"0 0 16 16\" role=\"img\" aria-label=\"used octets\">");
    for column in 0..16 {
        for half in (0..2).filter(|&half| mark.uses(column, half)) {
            let y = 8 * half;
            write!(svg, "<rect x=\"{column}.08\" y=\"{y}.15\" width=\".84\" height=\"7.7\" fill=\"{color}\"/>")
                .unwrap();
        }
    }
    svg + "<path class=\"grid\" d=\"M0 8H16\"/></svg>"
}

/// Weights as 16 × 16 pixels, and a frame around each pixel that a test names.
pub fn weights(
    weights: &[[u32; 16]; 16],
    color: &str,
    label: &str,
    is_framed: impl Fn(usize, usize) -> bool,
) -> String {
    let mut svg = format!("<svg class=\"small\" viewBox=\"0 0 16 16\" role=\"img\" aria-label=\"{label}\">");
    for (y, row) in weights.iter().enumerate() {
        for (x, &weight) in row.iter().enumerate() {
            let part = f64::from(weight) / 512.0;
            if weight > 0 {
                write!(svg, "<path fill=\"{color}\" fill-opacity=\"{part:.3}\" d=\"M{x} {y}h1v1h-1z\"/>").unwrap();
            }
            if is_framed(x, y) {
                write!(svg, "<path class=\"other\" d=\"M{x}.15 {y}.15h.7v.7h-.7z\"/>").unwrap();
            }
        }
    }
    svg + "<path class=\"grid\" d=\"M4 0V16M8 0V16M12 0V16M0 4H16M0 8H16M0 12H16\"/></svg>"
}
