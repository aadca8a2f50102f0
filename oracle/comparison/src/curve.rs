//! The even-odd curve that the crate `curve` prints, from the Rust's coverages.

use std::{fs, path::PathBuf};

use reference::{painter, plain::RULES};

use crate::tally::Tally;

fn place() -> PathBuf {
    PathBuf::from(env!("CARGO_MANIFEST_DIR")).join("../../crates/curve/stdout")
}

/// The names, then each remainder of d by 1,024 and its weight: the Rust's coverage, times 512.
fn text() -> String {
    let [_, even_odd] = RULES;
    let lines = (0..1024).map(|rest| format!("{rest} {}\n", painter::coverage(rest, even_odd) * 512.0));
    "rest weight\n".to_string() + &lines.collect::<String>()
}

pub fn write() {
    fs::write(place(), text()).expect("crates/curve/stdout");
}

/// What the crate says that its program prints.
pub fn compare(tally: &mut Tally) {
    tally.kind("the even-odd curve", |kind| {
        let stored = fs::read_to_string(place()).expect("crates/curve/stdout");
        kind.case(stored == text(), || "crates/curve/stdout has another curve".to_string());
    });
}
