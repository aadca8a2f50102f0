//! What the row program prints, made again through the crate, and the inspector's page of the same jobs.

#[path = "../examples/support/mod.rs"]
mod support;

#[path = "../examples/inspect/view/mod.rs"]
mod view;

mod stored;

use std::{fs, path::PathBuf};

/// Where the pages would find the manual.
const MANUAL: &str = "docs/MANUAL.md";

#[test]
fn each_job_gives_what_the_row_program_prints() {
    let stored = stored::jobs();
    assert!(stored.len() > 150, "there are job files");
    for (name, text, printed) in stored {
        assert_eq!(support::driven::answer(&text), printed, "{name}");
    }
}

/// The texts of elements of a class that hold no others.
fn texts<'a>(page: &'a str, start: &str) -> Vec<&'a str> {
    let ends = |rest: &'a str| rest.split('<').next().unwrap();
    page.split(start).skip(1).map(ends).collect()
}

#[test]
fn the_page_has_the_numbers_of_the_row_program() {
    for (name, text, printed) in stored::jobs() {
        let page = view::page(&name, MANUAL, &text, Some(0..4095));
        let lines: Vec<&str> = printed.lines().filter(|&line| line != support::driven::NAMES).collect();
        assert_eq!(texts(&page, "<code class=\"line\">"), lines, "{name}");
        let refused_open = !page.contains("class=\"strip");
        let tiles = texts(&page, "href=\"#tile-").len();
        assert_eq!(tiles, if refused_open { 0 } else { lines.len() }, "{name}: the strip has each tile");
        let printed = page.matches("<span class=\"choose ").count();
        assert!(printed == 0 && tiles <= 8 || printed == tiles, "{name}: on paper the strip has each tile");
        for line in lines.iter().filter(|line| !line.starts_with("refused")) {
            let fields: Vec<&str> = line.split(' ').collect();
            let [tile, op, listed, shown, octets, carried] = fields[..] else { panic!("{line}") };
            let strip = format!("href=\"#tile-{tile}\">{tile}<b>{op}</b>");
            assert!(page.contains(&strip), "{name}: {line} in the strip");
            let words =
                format!(">{line}</code>: {listed} listed, {shown} shown, {octets} used octets, {carried} carried");
            assert!(page.contains(&words), "{name}: {line} in words");
        }
    }
}

/// Each octet that a page draws, each carry and each listed layer is one that the row program counts.
#[test]
fn the_page_draws_what_it_counts() {
    for (name, text, printed) in stored::jobs() {
        let page = view::page(&name, MANUAL, &text, Some(0..4095));
        let sum = |field: usize| -> usize {
            let lines = printed.lines().filter(|line| line.starts_with(|first: char| first.is_ascii_digit()));
            lines.map(|line| line.split(' ').nth(field).unwrap().parse::<usize>().unwrap()).sum()
        };
        assert_eq!(page.matches("height=\"7.7\"").count(), sum(4), "{name}: octets");
        assert_eq!(page.matches("<svg class=\"plane\"").count(), sum(2), "{name}: listed layers");
        assert_eq!(page.matches("<b class=\"state\">shown</b>").count(), sum(3), "{name}: shown layers");
    }
}

/// The tour links a page for each of its three mistakes; they are made anew by the example, from the repository's root.
#[test]
fn the_tours_pages_are_the_inspectors() {
    for name in ["carry_to_the_right", "covered_carry_to_the_right", "equal_keys"] {
        let file = format!("{name}.job");
        let text = fs::read(stored::path("data").join(&file)).unwrap();
        let page = view::page(&format!("crates/jobs/data/{file}"), "../../MANUAL.md", &text, None);
        let kept = PathBuf::from(env!("CARGO_MANIFEST_DIR")).join(format!("../../docs/tour/pages/{name}.html"));
        assert!(fs::read_to_string(kept).unwrap() == page, "{name}: `inspect {file}` makes another page");
        let tour = fs::read_to_string(stored::path("../../docs/TOUR.md")).unwrap();
        assert!(tour.contains(&format!("(tour/pages/{name}.html)")), "{name}: the tour links it");
    }
}

/// And a page for each mistake, right beside wrong, of the traces that docs/tour/make stored.
#[test]
fn the_tours_pages_right_beside_wrong_are_of_its_traces() {
    let tour = PathBuf::from(env!("CARGO_MANIFEST_DIR")).join("../../docs/tour");
    let read = |name: String| fs::read_to_string(tour.join(name)).unwrap();
    for name in ["carry_not_handed_on", "covered_carry_lost", "first_equal_key"] {
        let (right, wrong) = (read(format!("traces/{name}.right")), read(format!("traces/{name}.wrong")));
        let page = view::beside::page(name, "../../MANUAL.md", &right, &wrong);
        assert!(read(format!("pages/{name}.html")) == page, "{name}: docs/tour/make makes another page");
        assert!(page.contains("class=\"block differs\"") && page.contains("<tr class=\"differs\">"), "{name}");
        assert!(
            read("../TOUR.md".to_string()).contains(&format!("(tour/pages/{name}.html)")),
            "{name}: the tour links it"
        );
    }
}

/// The tour's job of the part drawing is what `outline` writes.
#[test]
fn the_tours_job_is_the_outlines() {
    use support::outline::{job_text, text};
    let plate = PathBuf::from(env!("CARGO_MANIFEST_DIR")).join("../../docs/tour/plate");
    let figure = text::read(&fs::read_to_string(plate.join("part.outline")).unwrap()).unwrap();
    let segments = figure.segments().unwrap();
    let job = job_text::job_text(&figure, 2, 6..10, figure.row(&segments, 2)).unwrap();
    assert!(fs::read_to_string(plate.join("row_2.job")).unwrap() == job, "docs/tour/make makes another job");
}
