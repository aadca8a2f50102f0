//! The job files of the crate `jobs`: the Rust's answers to them, the second model's where it judges, and those that are
//! too large to be written by hand.

use std::{collections::BTreeSet, fs, path::PathBuf};

use crate::{
    job_reader::{Job, LAYERS, LINES, LONGEST_TEXT, SEGMENTS},
    jobs::{answer, check},
    loads::{made, Asked},
    tally::{Kind, Tally},
};

/// A path below the crate's folder.
fn place(name: &str) -> PathBuf {
    PathBuf::from(env!("CARGO_MANIFEST_DIR")).join("../../crates/jobs").join(name)
}

/// The files that the program is given, in order.
fn names() -> Vec<String> {
    let args = fs::read_to_string(place("args")).expect("crates/jobs/args");
    args.lines().map(str::to_string).collect()
}

fn text_of(name: &str) -> Vec<u8> {
    fs::read(place("data").join(name)).unwrap_or_else(|error| panic!("{name}: {error}"))
}

/// What the program prints for one file: its name and the answer.
fn section(name: &str, text: &[u8]) -> Vec<u8> {
    let answer = answer(text).expect("the Rust panics at no accepted job");
    format!("{name}\n{}", answer.text).into_bytes()
}

/// Writes the large files, and the answers to all to `stdout`.
pub fn write() {
    for (name, text) in large() {
        fs::write(place("data").join(name), text).expect("crates/jobs/data");
    }
    let sections: Vec<Vec<u8>> = names().iter().map(|name| section(name, &text_of(name))).collect();
    fs::write(place("stdout"), sections.concat()).expect("crates/jobs/stdout");
}

/// Every file once more: by the row program, and in what the crate says that its program prints.
pub fn compare(tally: &mut Tally) {
    tally.kind("the files of the crate jobs", |kind| {
        let names = names();
        let mut left = fs::read(place("stdout")).expect("crates/jobs/stdout");
        for name in &names {
            let text = text_of(name);
            check(kind, &text);
            let section = section(name, &text);
            kind.case(left.starts_with(&section), || format!("{name}: crates/jobs/stdout has another answer"));
            left.drain(..section.len().min(left.len()));
        }
        kind.case(left.is_empty(), || "crates/jobs/stdout goes on".to_string());
        compare_files(kind, &names);
    });
}

/// Every file is given to the program, and the large ones are those that are made here.
fn compare_files(kind: &mut Kind, names: &[String]) {
    let files = fs::read_dir(place("data")).expect("crates/jobs/data");
    let files: BTreeSet<String> = files.map(|file| file.unwrap().file_name().into_string().unwrap()).collect();
    kind.case(files == names.iter().cloned().collect(), || "crates/jobs/args names other files".to_string());
    for (name, text) in large() {
        kind.case(text_of(name) == text, || format!("{name} is not what oracle/answers writes"));
    }
}

/// The counts of the text at their edges and one past them, a text that is a byte too long, and two made loads.
fn large() -> [(&'static str, Vec<u8>); 9] {
    let lines = LINES as i64;
    [
        ("layers_64_pass.job", many_layers(LAYERS as i64).text()),
        ("ten_65_layers.job", many_layers(LAYERS as i64 + 1).text()),
        ("lines_512_pass.job", many_lines(lines).text()),
        ("ten_513_lines.job", many_lines(lines + 1).text()),
        ("segments_2048_pass.job", many_segments(SEGMENTS).text()),
        ("ten_2049_segments.job", many_segments(SEGMENTS + 1).text()),
        ("ten_long_text.job", long_text()),
        ("load_0_16_128.job", made(Asked { seed: 0, tiles: 16, segments: 128 }).text()),
        ("nine_load_116_1_512.job", made(Asked { seed: 116, tiles: 1, segments: 512 }).text()),
    ]
}

fn draws(count: i64) -> Vec<[i64; 8]> {
    (1..=count).map(|id| [id, id % 2, 0, 0, 0, 0, 0, 128 + id]).collect()
}

/// Each layer covers a part of tile 0.
fn many_layers(count: i64) -> Job {
    let lines = (1..=count).map(|id| [0, id, id % 16, 0, 16, 32, 16]).collect();
    Job { head: [0, 2, 0, 2], layers: draws(count), lines }
}

/// Eight lines a tile, each of a layer and one row; what a tile begins, the next one ends.
fn many_lines(count: i64) -> Job {
    let line = |i: i64| {
        let tile = i / 8;
        [tile, 1 + i % 8, i % 16, tile / 2 % 16, 1, 32, if tile % 2 == 0 { 16 } else { -16 }]
    };
    Job { head: [0, 64, 0, 64], layers: draws(8), lines: (0..count).map(line).collect() }
}

/// Two lines a tile, each of a layer and all rows; what a tile begins, the next one ends.
fn many_segments(count: i64) -> Job {
    let line = |i: i64| {
        let tile = i / 2;
        [tile, 1 + i % 2, i % 16, 0, (count - 16 * i).min(16), 32, if tile % 2 == 0 { 16 } else { -16 }]
    };
    Job { head: [0, 64, 0, 64], layers: draws(2), lines: (0..(count + 15) / 16).map(line).collect() }
}

/// One line again and again.
fn long_text() -> Vec<u8> {
    let mut text = Job { head: [0, 1, 0, 1], layers: draws(1), lines: Vec::new() }.text();
    while text.len() <= LONGEST_TEXT {
        text.extend(b"0 1 0 0 1 32 0\n");
    }
    text.truncate(LONGEST_TEXT + 1);
    text
}
