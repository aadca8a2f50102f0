//! A whole plate at a glance: a map of its tiles by what was decided, and where it is known how it would look, a picture.

use std::fmt::Write;

use tile_rows::{Decision, Refusal};

use super::{bitmap, document, document::escaped, frames::Shot, input::Input};

/// A row of the plate: what it is called, the text that it is of, where its page is, and its last frame.
pub struct PlateRow {
    pub name: String,
    pub source: String,
    pub address: String,
    pub worked: Result<(Input, Shot), Refusal>,
}

/// Of a tile: the class, the letter and the word of its decision.
fn kind(decision: Decision, is_wrong: bool) -> (&'static str, &'static str, &'static str) {
    match decision {
        Decision::None if is_wrong => ("none wrong", "!", "kept with a wrong picture"),
        Decision::None => ("none", "k", "none: kept"),
        Decision::Solid { .. } => ("solid", "s", "solid"),
        Decision::Paint => ("paint", "p", "paint"),
    }
}

/// The page of a plate; `is_figure` where its colours are those of a figure.
pub fn page(name: &str, manual: &str, rows: &[PlateRow], is_figure: bool, note: &str) -> String {
    let mut body = format!("<h1>A plate of {} rows</h1>\n<p>{}</p>\n", rows.len(), escaped(note));
    body += &counts(rows);
    body += &picture(rows, is_figure);
    body += "<h2>Its tiles</h2>\n<p class=\"legend\"><span class=\"m paint\">p</span> paint \
             <span class=\"m solid\">s</span> solid <span class=\"m none\">k</span> kept (none) \
             <span class=\"m refused\">r</span> refused <span class=\"m\"></span> not worked. A tile is a link to its row's page.</p>\n\
             <div class=\"map\" role=\"region\" tabindex=\"0\" aria-label=\"the tiles of the plate\"><table>\n";
    rows.iter().for_each(|row| body += &line(row));
    body += "</table></div>\n";
    document::page(name, manual, &body)
}

/// How many tiles were decided how, and what they list and use.
fn counts(rows: &[PlateRow]) -> String {
    let shots = || rows.iter().filter_map(|row| row.worked.as_ref().ok()).map(|(_, shot)| shot);
    let tiles = || shots().flat_map(|shot| &shot.tiles);
    let of = |word: &str| tiles().filter(|kept| kept.tile.decision.word() == word).count();
    let refused =
        rows.iter().filter(|row| row.worked.is_err()).count() + shots().filter(|shot| shot.refusal.is_some()).count();
    let wrong = tiles().filter(|kept| kept.is_wrong()).count();
    let listed: usize = tiles().map(|kept| kept.tile.list.len()).sum();
    let shown: usize = tiles().map(|kept| kept.tile.shown()).sum();
    let octets: u32 = tiles().map(|kept| kept.tile.octets()).sum();
    let names = ["tiles", "paint", "solid", "kept", "kept wrongly", "refused rows", "listed", "shown", "octets"];
    let numbers =
        [tiles().count(), of("paint"), of("solid"), of("none"), wrong, refused, listed, shown, octets as usize];
    let cell = |(name, number): (&str, usize)| format!("<div><b>{number}</b> {name}</div>");
    format!("<div class=\"counts\">{}</div>\n", names.into_iter().zip(numbers).map(cell).collect::<String>())
}

/// The plate composed, tile by tile.
fn picture(rows: &[PlateRow], is_figure: bool) -> String {
    let inputs: Vec<&(Input, Shot)> = rows.iter().filter_map(|row| row.worked.as_ref().ok()).collect();
    let tiles = inputs.iter().map(|(input, _)| input.tiles.end).max().unwrap_or(0).max(0) as usize;
    if tiles == 0 || inputs.len() != rows.len() {
        return String::new();
    }
    let width = 16 * tiles;
    let mut pixels = vec![[238; 3]; width * 16 * rows.len()];
    for (at, (_, shot)) in inputs.iter().enumerate() {
        for kept in &shot.tiles {
            for (place, &pixel) in kept.shows.iter().enumerate() {
                let (x, y) = (16 * kept.tile.tile as usize + place % 16, 16 * at + place / 16);
                pixels[y * width + x] = pixel;
            }
        }
    }
    let colors = if is_figure { "the figure's colours" } else { "the page's colours" };
    format!(
        "<figure class=\"whole\"><img src=\"{}\" width=\"{width}\" height=\"{}\" alt=\"the plate composed\">\
         <figcaption>The plate as it would look, in {colors} over white: a picture for people, no blending of the display \
         stage.</figcaption></figure>\n",
        bitmap::address(width, &pixels),
        16 * rows.len()
    )
}

fn line(row: &PlateRow) -> String {
    let (name, address) = (escaped(&row.name), escaped(&row.address));
    let mut text = format!("<tr><th title=\"{name}\"><a href=\"{address}\">{name}</a></th>");
    match &row.worked {
        Err(refusal) => {
            write!(text, "<td colspan=\"99\">refused {}: {}</td>", refusal.number(), escaped(refusal.meaning()))
                .expect("a string takes every text");
        }
        Ok((input, shot)) => text += &cells(input, shot, &address),
    }
    text + "</tr>\n"
}

fn cells(input: &Input, shot: &Shot, address: &str) -> String {
    let mut text = "<td></td>".repeat(input.due.start.max(0) as usize);
    for kept in &shot.tiles {
        let (class, letter, word) = kind(kept.tile.decision, kept.is_wrong());
        let (tile, listed, shown) = (kept.tile.tile, kept.tile.list.len(), kept.tile.shown());
        write!(
            text,
            "<td><a class=\"m {class}\" href=\"{address}#tile-{tile}\" title=\"tile {tile}: {word}, {listed} listed, {shown} shown, {} octets\">{letter}</a></td>",
            kept.tile.octets()
        )
        .expect("a string takes every text");
    }
    if let Some(refusal) = shot.refusal {
        let tile = shot.tiles.last().map_or(input.due.start, |kept| kept.tile.tile + 1);
        write!(
            text,
            "<td><a class=\"m refused\" href=\"{address}#tile-{tile}\" title=\"tile {tile}: refused {}\">r</a></td>",
            refusal.number()
        )
        .expect("a string takes every text");
    }
    text
}
