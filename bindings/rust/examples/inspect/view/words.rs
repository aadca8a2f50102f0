//! The row itself: its words as a strip in order, each with tile x and layer, in the parts of the tiles.

use std::fmt::Write;

use tile_rows::PixelSegment;

use super::{document::term, input::Input};

/// Where the part of a tile begins and ends.
pub fn part(row: &[PixelSegment], tile: i32) -> (usize, usize) {
    let before = |tile: i32| row.iter().filter(|segment| i32::from(segment.tile_x()) < tile).count();
    (before(tile), before(tile + 1))
}

/// The strip. The part of the tile that is chosen is marked by the page's script; without it every part is told apart by
/// its caption.
pub fn strip(input: &Input) -> String {
    let row = &input.segments;
    if row.is_empty() {
        return "<p>The row has no words.</p>\n".to_string();
    }
    let words = if row.len() == 1 { "word" } else { "words" };
    let mut text = format!(
        "<h2>The row: {} {words}</h2>\n<p>Each is a {}: above its tile x, below its layer. They are sorted, so that the \
         words of a tile stand together, its {}.</p>\n\
         <div class=\"row-words\" role=\"region\" tabindex=\"0\" aria-label=\"the words of the row\">",
        row.len(),
        term("segment"),
        term("part")
    );
    let mut start = 0;
    while start < row.len() {
        let tile = i32::from(row[start].tile_x());
        let end = part(row, tile).1;
        write!(
            text,
            "<div class=\"part\" data-tile=\"{tile}\"><b>tile {tile}: [{start}..{end})</b><ol start=\"{start}\">"
        )
        .expect("a string takes every text");
        row[start..end].iter().for_each(|word| text += &one(word));
        text += "</ol></div>\n";
        start = end;
    }
    text + "</div>\n"
}

fn one(word: &PixelSegment) -> String {
    let fields = word.fields();
    let (x, y, multiplier, cover) = (fields.local_x, fields.local_y, fields.double_area_multiplier, fields.cover);
    format!(
        "<li title=\"column {x}, row {y}, multiplier {multiplier}, cover {cover}\">{}<i>{}</i></li>",
        fields.tile_x, fields.layer_id
    )
}
