//! The inspector: pages, without a network, that show rows, frames and plates as people think of them. `USE` below says
//! what it is given.

#[path = "../support/mod.rs"]
mod support;
mod view;

use std::{env, fs, ops::Range, path::Path, process::ExitCode};

use support::outline::{text, Figure};
use tile_rows::PixelSegment;
use view::{beside, frames, histories, input::Input, plate};

const USE: &str = "usage: inspect [--manual PATH] ..., which writes a page to standard output:
  inspect JOB [FROM..TO]              a row, by its job text; the tiles of a range, or the first 100
  inspect JOB then JOB [then JOB]..   frames of a row, with cached tiles
  inspect history A                   one of the histories A to H, in which a tile is kept with a wrong picture
  inspect beside NAME RIGHT WRONG     two traces of one job, by the right program and by one made wrong
  inspect plate FOLDER JOB..          into FOLDER: index.html, a map of the rows' tiles, and a page for each row
  inspect plate FOLDER FIGURE [then FIGURE]   the same of a text of outlines (the example `outline`); with frames
PATH is where the pages find docs/MANUAL.md.";

fn main() -> ExitCode {
    let mut words: Vec<String> = env::args().skip(1).collect();
    let mut manual = concat!(env!("CARGO_MANIFEST_DIR"), "/../../docs/MANUAL.md").to_string();
    if words.len() > 1 && words[0] == "--manual" {
        manual = words.remove(1);
        words.remove(0);
    }
    let words: Vec<&str> = words.iter().map(String::as_str).collect();
    match made(&words, &manual) {
        Ok(page) => {
            print!("{page}");
            ExitCode::SUCCESS
        }
        Err(told) => {
            eprintln!("inspect: {told}");
            ExitCode::from(2)
        }
    }
}

fn made(words: &[&str], manual: &str) -> Result<String, String> {
    match words {
        ["history", letter] => {
            let letter = letter.chars().next().unwrap_or_default();
            histories::page(letter, manual).ok_or("the histories are A to H".to_string())
        }
        ["beside", name, right, wrong] => Ok(beside::page(name, manual, &string_of(right)?, &string_of(wrong)?)),
        ["plate", folder, files @ ..] if !files.is_empty() => {
            plate_pages(folder, files, manual).map(|()| String::new())
        }
        [file] => Ok(view::page(file, manual, &bytes_of(file)?, None)),
        [_, "then", ..] => frames_page(words, manual),
        [file, range] => {
            let range = range_of(range).ok_or("the tiles are given as FROM..TO")?;
            Ok(view::page(file, manual, &bytes_of(file)?, Some(range)))
        }
        _ => Err(USE.to_string()),
    }
}

fn bytes_of(file: &str) -> Result<Vec<u8>, String> {
    fs::read(file).map_err(|error| format!("{file}: {error}"))
}

fn string_of(file: &str) -> Result<String, String> {
    fs::read_to_string(file).map_err(|error| format!("{file}: {error}"))
}

fn range_of(text: &str) -> Option<Range<i32>> {
    let (from, to) = text.split_once("..")?;
    Some(from.parse().ok()?..to.parse().ok()?)
}

/// The files of `A then B then C`.
fn files_of<'a>(words: &[&'a str]) -> Result<Vec<&'a str>, String> {
    let is_then = |(at, word): (usize, &&str)| (at % 2 == 1) == (*word == "then");
    if words.len().is_multiple_of(2) || !words.iter().enumerate().all(is_then) {
        return Err(USE.to_string());
    }
    Ok(words.iter().copied().step_by(2).collect())
}

fn frames_page(words: &[&str], manual: &str) -> Result<String, String> {
    let files = files_of(words)?;
    let input = |file: &&str| {
        Input::of_job(&bytes_of(file)?).map_err(|refusal| format!("{file}: refused {}", refusal.number()))
    };
    let inputs = frames::with_flags(files.iter().map(input).collect::<Result<_, _>>()?);
    let name = |(at, file): (usize, &&str)| format!("Frame {}: {file}", at + 1);
    let names: Vec<String> = files.iter().enumerate().map(name).collect();
    let story =
        "A layer whose record and segments are those of the frame before counts as unchanged, as in the program \
                 <code>trace</code>.";
    Ok(frames::page(&files.join(" then "), manual, story, &names, &inputs))
}

/// Writes the pages of a plate: of job texts, a row each, or of one figure in one or more frames.
fn plate_pages(folder: &str, files: &[&str], manual: &str) -> Result<(), String> {
    let write = |name: &str, page: String| {
        fs::write(Path::new(folder).join(name), page).map_err(|error| format!("{folder}/{name}: {error}"))
    };
    fs::create_dir_all(folder).map_err(|error| format!("{folder}: {error}"))?;
    let is_figure = files[0].ends_with(".outline");
    let rows = if is_figure { figure_rows(&files_of(files)?)? } else { job_rows(files)? };
    for row in &rows {
        let page = match &row.worked {
            Ok((input, _)) => view::row_page(&row.source, manual, input, Some("index.html")),
            Err(_) => view::page(&row.source, manual, &bytes_of(&row.source)?, None),
        };
        write(&row.address, page)?;
    }
    write("index.html", plate::page(&files.join(" "), manual, &rows, is_figure, &note(files, is_figure)))
}

fn note(files: &[&str], is_figure: bool) -> String {
    match (is_figure, files.len()) {
        (true, 1) => "A figure of outlines, worked row by row; nothing was kept before.".to_string(),
        (true, _) => {
            "The last of its frames: a layer whose outlines are those of the frame before counts as unchanged, and \
                      a tile of which nothing changed is kept."
                .to_string()
        }
        _ => "Rows by their job texts, in the order in which they were named; nothing was kept before.".to_string(),
    }
}

fn job_rows(files: &[&str]) -> Result<Vec<plate::PlateRow>, String> {
    let row = |(at, file): (usize, &&str)| {
        let worked = Input::of_job(&bytes_of(file)?).map(|input| (input.clone(), frames::worked(&[input]).remove(0)));
        let name = Path::new(file).file_name().map_or(file.to_string(), |name| name.to_string_lossy().into_owned());
        Ok(plate::PlateRow { name, source: file.to_string(), address: format!("row-{at}.html"), worked })
    };
    files.iter().enumerate().map(row).collect()
}

fn figure_rows(files: &[&str]) -> Result<Vec<plate::PlateRow>, String> {
    let figures = files.iter().map(|file| figure_of(file)).collect::<Result<Vec<_>, _>>()?;
    let rows = figures.iter().map(|(figure, _)| figure.rows).min().unwrap_or(0);
    let row = |row: i16| {
        let inputs = figures.iter().map(|(figure, segments)| Input::of_figure(figure, segments, row)).collect();
        let inputs = frames::with_flags(inputs);
        let last = inputs.last().cloned().expect("a figure is named");
        let shot = frames::worked(&inputs).pop().expect("as many as frames");
        plate::PlateRow {
            name: format!("row {row}"),
            source: format!("{}, row {row}", files.join(" then ")),
            address: format!("row-{row}.html"),
            worked: Ok((last, shot)),
        }
    };
    Ok((0..rows).map(row).collect())
}

fn figure_of(file: &str) -> Result<(Figure, Vec<PixelSegment>), String> {
    let at = |fault| format!("{file}: {fault}");
    let figure = text::read(&string_of(file)?).map_err(at)?;
    let segments = figure.segments().map_err(at)?;
    Ok((figure, segments))
}
