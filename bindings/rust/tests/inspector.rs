//! What the inspector's pages say, held to the library: searches, cuts of clips, frames, plates.

#[path = "../examples/support/mod.rs"]
mod support;

#[path = "../examples/inspect/view/mod.rs"]
mod view;

mod stored;

use std::{fs, path::PathBuf};

use support::{
    driven::{drive_row, NAMES},
    outline::text,
};
use tile_rows::{
    segment::{search_last, Key},
    Decision, PixelSegment,
};
use view::{
    composed::{cuts, Cut},
    frames, histories,
    input::Input,
    plate::{self, PlateRow},
    search::search,
    words::part,
};

const MANUAL: &str = "docs/MANUAL.md";

/// The jobs that are accepted, as rows.
fn inputs() -> Vec<(String, Input)> {
    let input = |(name, text, _): (String, Vec<u8>, String)| Some((name, Input::of_job(&text).ok()?));
    stored::jobs().into_iter().filter_map(input).filter(|(_, input)| does_ascend(&input.segments)).collect()
}

fn does_ascend(segments: &[PixelSegment]) -> bool {
    tile_rows::segment::does_ascend(segments)
}

/// Every step halves what is left, and the search by the last key ends where the library's does.
#[test]
fn the_search_is_the_librarys() {
    let mut found = 0;
    for (name, input) in inputs() {
        for tile in input.due.clone().take(100) {
            let (start, end) = part(&input.segments, tile);
            let told = search(&input.segments, start, tile, true);
            let place = search_last(&input.segments[start..], Key::TileX(tile as i16));
            let due = start + place.map_or_else(|place| place, |last| last + 1);
            assert_eq!((told.end, due), (end, end), "{name}: tile {tile}");
            let mut left = (start, input.segments.len());
            for step in &told.steps {
                assert_eq!((step.low, step.high), left, "{name}: tile {tile}");
                left = if step.keeps_right { (step.looked, step.high) } else { (step.low, step.looked) };
            }
            // By the first equal key the part has one word at most.
            let first = search(&input.segments, start, tile, false);
            assert_eq!(first.end, end.min(start + 1), "{name}: tile {tile}");
            found += usize::from(end > start + 1);
        }
    }
    assert!(found > 100, "{found} parts of several words");
}

/// A painted draw has mark 0 where the page says that it lacks its clip; a clip always has.
#[test]
fn the_cuts_are_the_painters() {
    let (mut lacking, mut cut, mut clips) = (0, 0, 0);
    for (name, input) in inputs() {
        let driven = drive_row(&input.segments, &input.table, input.row, input.tiles.clone(), input.due.clone());
        for tile in driven.tiles.iter().filter(|tile| tile.decision == Decision::Paint) {
            for (entry, kind) in tile.list.iter().zip(cuts(&input, tile)) {
                let Some((mark, plane)) = &entry.painted else {
                    assert_eq!(kind, Cut::Hidden, "{name}: tile {}", tile.tile);
                    continue;
                };
                let is_drawn = plane.as_numbers().iter().any(|&coverage| coverage > 0.0);
                match kind {
                    Cut::Lacks | Cut::Clip(_) => assert_eq!(mark.0, 0, "{name}: tile {}", tile.tile),
                    Cut::Free | Cut::By(_) => assert_eq!(mark.0 != 0, is_drawn, "{name}: tile {}", tile.tile),
                    Cut::Hidden => panic!("{name}: a hidden layer is painted"),
                }
                lacking += usize::from(kind == Cut::Lacks && is_drawn);
                cut += usize::from(matches!(kind, Cut::By(_)));
                clips += usize::from(matches!(kind, Cut::Clip(_)));
            }
        }
    }
    assert!(lacking > 0 && cut > 0 && clips > 0, "{lacking} draws lack a clip, {cut} are cut, {clips} clips");
}

/// In each history but B the last frame keeps a tile with a wrong picture, with the bytes of docs/DIFFERENCES.md, and the
/// keep rule draws it afresh.
#[test]
fn the_histories_are_kept_wrongly() {
    let bytes = |letter: char| match letter {
        'A' | 'C' => [3, 2, 0, 0, 187, 187, 0, 255],
        'D' | 'E' => [3, 3, 0, 0, 187, 187, 0, 255],
        'F' => [3, 1, 0, 0, 255, 0, 0, 255],
        'G' => [3, 2, 0, 0, 187, 187, 0, 255],
        'H' => [3, 2, 0, 0, 255, 0, 0, 255],
        _ => panic!("{letter}"),
    };
    for letter in 'A'..='H' {
        let shots = frames::worked(&histories::history(letter).unwrap().1);
        let last = shots.last().unwrap().tiles.last().unwrap();
        if letter == 'B' {
            assert_eq!((last.tile.decision.word(), last.is_wrong()), ("solid", false));
            continue;
        }
        assert_eq!((last.tile.decision, last.is_wrong()), (Decision::None, true), "{letter}");
        assert_ne!(last.by_rule, Decision::None, "{letter}: the rule draws it");
        assert_eq!(last.after.0, bytes(letter), "{letter}");
        let page = histories::page(letter, MANUAL).unwrap();
        assert_eq!(page.matches("kept with a wrong picture</b>").count(), 1, "{letter}");
    }
}

/// The frames of the tour's section 7: decisions and cached bytes, as `trace` prints them.
#[test]
fn frames_of_jobs_say_what_trace_says() {
    let data = stored::path("../trace/data");
    let input = |name: &str| Input::of_job(&fs::read(data.join(name)).unwrap()).unwrap();
    let inputs = frames::with_flags(["frame_1.job", "frame_2.job", "frame_2.job"].map(input).to_vec());
    let stdout = fs::read_to_string(stored::path("../trace/stdout")).unwrap();
    let traced = stdout.split("frame_1.job\n").nth(1).unwrap();
    let lines = |start: &str| -> Vec<String> {
        traced.lines().filter_map(|line| line.trim().strip_prefix(start)).map(|rest| rest.trim().to_string()).collect()
    };
    let (before, after, told) = (lines("cached before:"), lines("cached after:"), lines("line:"));
    let shots = frames::worked(&inputs);
    let tiles: Vec<_> = shots.iter().flat_map(|shot| &shot.tiles).collect();
    assert_eq!(tiles.len(), 15);
    for (at, kept) in tiles.into_iter().enumerate() {
        let bytes = |tile: tile_rows::CachedTile| tile.0.map(|byte| byte.to_string()).join(" ");
        assert_eq!((bytes(kept.before), bytes(kept.after)), (before[at].clone(), after[at].clone()), "{at}");
        assert_eq!(kept.tile.line(), told[at], "{at}");
        assert!(!kept.is_wrong());
    }
}

/// Frame 2 of the part drawing moves the German labels: tiles in which no German letter is listed, before or now, are
/// kept, and none of them wrongly.
#[test]
fn the_part_drawing_in_two_frames() {
    let read = |name: &str| {
        let file = PathBuf::from(env!("CARGO_MANIFEST_DIR")).join("../../docs/tour/plate").join(name);
        let figure = text::read(&fs::read_to_string(file).unwrap()).unwrap();
        let segments = figure.segments().unwrap();
        (figure, segments)
    };
    let figures = ["part.outline", "part_moved.outline"].map(read);
    let (mut kept, mut rows) = (0, Vec::new());
    for row in 0..6 {
        let inputs: Vec<Input> =
            figures.iter().map(|(figure, segments)| Input::of_figure(figure, segments, row)).collect();
        let inputs = frames::with_flags(inputs);
        let shots = frames::worked(&inputs);
        let is_german = |tile: &frames::Kept| tile.tile.list.iter().any(|entry| (31..=36).contains(&entry.listed.id));
        for (first, second) in shots[0].tiles.iter().zip(&shots[1].tiles) {
            let is_kept = second.tile.decision == Decision::None;
            assert_eq!(is_kept, !is_german(first) && !is_german(second), "row {row}, tile {}", first.tile.tile);
            assert!(!second.is_wrong() && (second.by_rule == Decision::None) == is_kept);
            kept += usize::from(is_kept);
        }
        let worked = Ok((inputs[1].clone(), shots[1].clone()));
        rows.push(PlateRow {
            name: format!("row {row}"),
            source: String::new(),
            address: format!("row-{row}.html"),
            worked,
        });
    }
    let page = plate::page("part", MANUAL, &rows, true, "");
    assert_eq!(page.matches("class=\"m none\" href").count(), kept);
    assert!(page.contains(&format!("<b>{kept}</b> kept")) && page.contains("<b>120</b> tiles"));
    assert!(page.contains("alt=\"the plate composed\""));
}

/// A map has a cell for each tile, by its decision, and says where a row is refused.
#[test]
fn a_map_has_each_tile() {
    for (name, text, printed) in stored::jobs() {
        let worked = Input::of_job(&text).map(|input| (input.clone(), frames::worked(&[input]).remove(0)));
        let row = PlateRow { name: name.clone(), source: name.clone(), address: "row.html".to_string(), worked };
        let page = plate::page(&name, MANUAL, &[row], false, "");
        let of =
            |word: &str| printed.lines().filter(|line| line.split(' ').nth(1) == Some(word) && *line != NAMES).count();
        for word in ["paint", "solid", "none"] {
            assert_eq!(page.matches(&format!("class=\"m {word}\" href")).count(), of(word), "{name}: {word}");
        }
        let refused = printed.lines().any(|line| line.starts_with("refused"));
        assert_eq!(page.contains("<b>1</b> refused rows"), refused, "{name}");
    }
}
