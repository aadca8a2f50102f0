//! The job files of crates/jobs, with what the row program prints of each.

use std::{fs, path::PathBuf};

/// A file of crates/jobs.
pub fn path(name: &str) -> PathBuf {
    PathBuf::from(env!("CARGO_MANIFEST_DIR")).join("../../crates/jobs").join(name)
}

/// The name, the text and the printed answer of each job file.
pub fn jobs() -> Vec<(String, Vec<u8>, String)> {
    let names = fs::read_to_string(path("args")).unwrap();
    let names: Vec<&str> = names.lines().collect();
    let printed = fs::read_to_string(path("stdout")).unwrap();
    let mut lines = printed.lines().peekable();
    let mut stored = Vec::new();
    for (place, &name) in names.iter().enumerate() {
        assert_eq!(lines.next(), Some(name), "the program names the file before its answer");
        let next = names.get(place + 1).copied();
        let mut answer = String::new();
        while let Some(line) = lines.next_if(|&line| Some(line) != next) {
            answer += line;
            answer += "\n";
        }
        stored.push((name.to_string(), fs::read(path("data").join(name)).unwrap(), answer));
    }
    stored
}
