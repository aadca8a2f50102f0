//! The page of one row.

use std::{fmt::Write, ops::Range};

use super::{
    super::support::driven::{drive_row, Driven, Tile},
    document,
    input::Input,
    lanes::Lanes,
    tile::Scene,
    words,
};

/// How many tiles a page has where no range is given.
const TILES: usize = 100;

/// The page of a job text, with the tiles of a range.
pub fn page(name: &str, manual: &str, text: &[u8], range: Option<Range<i32>>) -> String {
    let body = match Input::of_job(text) {
        Err(refusal) => {
            format!("<h1>A job that is turned down</h1>{}", document::refused("The job text", refusal))
        }
        Ok(input) => body(&input, range),
    };
    document::page(name, manual, &body)
}

/// The page of a row of any source; `plate` is where the page of its plate is.
pub fn row_page(name: &str, manual: &str, input: &Input, plate: Option<&str>) -> String {
    let back = plate.map_or(String::new(), |plate| {
        format!("<p><a href=\"{plate}\">The whole plate</a>. Here the row is worked as if nothing had been kept of it.</p>\n")
    });
    document::page(name, manual, &(back + &body(input, Some(input.due.clone()))))
}

fn body(input: &Input, range: Option<Range<i32>>) -> String {
    let driven = drive_row(&input.segments, &input.table, input.row, input.tiles.clone(), input.due.clone());
    let chosen = |tile: &Tile| range.as_ref().is_none_or(|range| range.contains(&tile.tile));
    let first = driven.tiles.iter().position(chosen).unwrap_or(0);
    let count = driven.tiles[first..].iter().take_while(|tile| chosen(tile)).count();
    let count = if range.is_none() { count.min(TILES) } else { count };
    told(input, &driven, &driven.tiles[first..first + count])
}

/// Tiles by their numbers: 'tiles 0 and 1', 'tiles 0 to 63', 'tile 4'.
pub fn tiles_in_words(range: &Range<i32>) -> String {
    match range.end - range.start {
        ..=0 => "no tiles".to_string(),
        1 => format!("tile {}", range.start),
        2 => format!("tiles {} and {}", range.start, range.start + 1),
        _ => format!("tiles {} to {}", range.start, range.end - 1),
    }
}

fn told(input: &Input, driven: &Driven, tiles: &[Tile]) -> String {
    let mut text = format!("<h1>Row {}, {}</h1>\n", input.row, tiles_in_words(&input.tiles));
    let past = input.tiles.end - input.due.end.max(input.tiles.start);
    if past > 0 && !input.due.is_empty() {
        writeln!(text, "<p>The row has {} of them.</p>", tiles_in_words(&input.due))
            .expect("a string takes every text");
    }
    let left_out = driven.tiles.len() - tiles.len();
    if left_out > 0 {
        writeln!(text, "<p>{left_out} more tiles were worked; `inspect JOB FROM..TO` shows others.</p>")
            .expect("a string takes every text");
    }
    let Some(opening) = &driven.opening else {
        let refusal = driven.refusal.expect("an opening is given or turned down");
        return text + &document::refused("The opening of the row", refusal) + &words::strip(input);
    };
    let next = input.tiles.start + driven.tiles.len() as i32;
    let refused = driven.refusal.map(|refusal| (next, refusal));
    let scene = Scene::new(input, driven, tiles, opening, refused);
    if let Some((tile, refusal)) = refused {
        writeln!(text, "<p class=\"refusal\">The row ends at tile {tile}: refused {}.</p>", refusal.number())
            .expect("a string takes every text");
    }
    text += &Lanes { input, tiles, refused }.strip();
    text += &words::strip(input);
    tiles.iter().for_each(|tile| text += &scene.tile(tile));
    text + &scene.refused_tile()
}
