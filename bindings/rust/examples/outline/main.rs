//! Outlines as text, turned into packed segments: `outline FIGURE` tells of each tile row, `outline FIGURE ROW` writes
//! the job text of one, `outline FIGURE ROW FROM..TO` that of some of its tiles, for the programs `row` and `trace` and
//! the example `inspect`. README.md has the text's lines. This is no part of what is proved.

#[path = "../support/mod.rs"]
mod support;

use std::{env, fs, ops::Range, process::ExitCode};

use support::outline::{job_text, text, Figure};
use tile_rows::PixelSegment;

fn main() -> ExitCode {
    let words: Vec<String> = env::args().skip(1).collect();
    let result = match &words[..] {
        [file] => read(file).map(|(figure, segments)| rows(&figure, &segments)),
        [file, row] => job(file, row, None),
        [file, row, tiles] => job(file, row, Some(tiles)),
        _ => Err("usage: outline FIGURE [ROW [FROM..TO]]".to_string()),
    };
    match result {
        Ok(text) => {
            print!("{text}");
            ExitCode::SUCCESS
        }
        Err(told) => {
            eprintln!("outline: {told}");
            ExitCode::from(2)
        }
    }
}

fn read(file: &str) -> Result<(Figure, Vec<PixelSegment>), String> {
    let text = fs::read_to_string(file).map_err(|error| format!("{file}: {error}"))?;
    let at = |fault| format!("{file}: {fault}");
    let figure = text::read(&text).map_err(at)?;
    let segments = figure.segments().map_err(at)?;
    Ok((figure, segments))
}

fn job(file: &str, row: &str, tiles: Option<&str>) -> Result<String, String> {
    let (figure, segments) = read(file)?;
    let row: i16 = row.parse().map_err(|_| "a row is a number".to_string())?;
    if !(0..figure.rows).contains(&row) {
        return Err(format!("{file}: the plate has no row {row}"));
    }
    let tiles = tiles.map_or(Some(0..figure.tiles), range_of).ok_or("the tiles are given as FROM..TO")?;
    job_text::job_text(&figure, row, tiles, figure.row(&segments, row))
}

fn range_of(text: &str) -> Option<Range<i32>> {
    let (from, to) = text.split_once("..")?;
    Some(from.parse().ok()?..to.parse().ok()?)
}

/// A line for each tile row.
fn rows(figure: &Figure, segments: &[PixelSegment]) -> String {
    let line = |row: i16| {
        let segments = figure.row(segments, row);
        let mut layers: Vec<u32> = segments.iter().map(|segment| segment.layer_id()).collect();
        layers.sort_unstable();
        layers.dedup();
        let lines = job_text::segment_lines(segments).len();
        format!("{row} {} {} {lines}\n", layers.len(), segments.len())
    };
    "row layers segments lines\n".to_string() + &(0..figure.rows).map(line).collect::<String>()
}
