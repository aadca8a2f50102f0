//! The job reader itself: what the scope's paragraph says of a text, and its example.

use comparison::{job_reader::read, jobs::answer};

const EXAMPLE: &str = "row tiles from to
0 4 0 4
layer rule clip span clipped fill mode alpha
1 0 0 0 0 0 0 256
tile_x layer x y rows mult cover
0 1 0 0 16 32 16
2 1 8 0 16 32 -16
";

const LINES: &str = "tile op listed shown octets carried
0 paint 1 1 32 1
1 solid 1 1 0 1
2 paint 1 1 16 0
3 solid 0 0 0 0
";

fn printed(text: &str) -> String {
    answer(text.as_bytes()).expect("the Rust does not panic").text
}

#[test]
fn the_job_of_the_scope() {
    assert_eq!(printed(EXAMPLE), LINES);
    assert_eq!(read(EXAMPLE.as_bytes()).unwrap().text(), EXAMPLE.as_bytes());
}

/// A text with one place of the example replaced.
fn with(from: &str, to: &str) -> String {
    assert!(EXAMPLE.contains(from));
    EXAMPLE.replacen(from, to, 1)
}

#[test]
fn malformed_texts() {
    let spellings = ["00 4", "-0 4", "0  4", "0 04", "0 +4", "0 10000000", "0 4.", "", "0 4\r", "0 4\0"];
    spellings.iter().for_each(|to| assert_eq!(printed(&with("0 4", to)), "refused 10\n", "{to:?}"));
    let lines = [
        "-2 1 0 0 1 0 0",
        "4095 1 0 0 1 0 0",
        "0 2097152 0 0 1 0 0",
        "0 1 16 0 1 0 0",
        "0 1 0 9 8 0 0",
        "0 1 0 0 0 0 0",
        "0 1 0 0 1 64 0",
        "0 1 0 0 1 0 32",
    ];
    lines.iter().for_each(|to| assert_eq!(printed(&with("0 1 0 0 16 32 16", to)), "refused 10\n", "{to}"));
    let layers = [
        "1 0 0 1 0 0 0 256",
        "1 0 0 0 0 0 0 257",
        "1 0 1 1 0 0 0 1",
        "1 0 1 1 0 0 1 0",
        "1 0 1 1 0 1 0 0",
        "1 0 1 1 1 0 0 0",
    ];
    layers.iter().for_each(|to| assert_eq!(printed(&with("1 0 0 0 0 0 0 256", to)), "refused 10\n", "{to}"));
    assert_eq!(printed(EXAMPLE.trim_end()), "refused 10\n");
    assert_eq!(printed(&(EXAMPLE.to_string() + "\n")), "refused 10\n");
}

#[test]
fn texts_that_other_numbers_judge() {
    let names = LINES.lines().next().unwrap();
    assert_eq!(printed(&with("0 4 0 4", "2047 4 0 4")), format!("{names}\nrefused 2\n"));
    assert_eq!(printed(&with("0 4 0 4", "0 4 0 4096")), format!("{names}\nrefused 2\n"));
    assert_eq!(printed(&with("2 1 8", "-1 1 8")), format!("{names}\nrefused 3\n"));
    assert_eq!(printed(&with("1 0 0 0 0 0 0 256", "1 0 2 5 2 3 16 256")), format!("{names}\nrefused 4\n"));
    assert_eq!(
        printed(&with("2 1 8", "2 2 8")),
        LINES.lines().take(3).chain(["refused 8", ""]).collect::<Vec<_>>().join("\n")
    );
    assert_eq!(printed(&with("0 4 0 4", "0 -1 4 4")), format!("{names}\n"));
}
