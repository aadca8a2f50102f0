//! Loads that can be made again: the generator of document 02 (W-204), written a second time, beside the program `load`.

use std::{fs, path::PathBuf};

use crate::{
    job_reader::Job,
    jobs::{check, printed},
    random::Random,
    tally::{Kind, Tally},
};

const MOST_TILES: i64 = 4_095;
const MOST_SEGMENTS: i64 = 512;

/// What a load is made from.
#[derive(Clone, Copy)]
pub struct Asked {
    pub seed: u32,
    pub tiles: i64,
    pub segments: i64,
}

/// The job of a load: segment k has slot k x 8 x tiles / segments, of which each tile has eight, one a layer, and four
/// draws.
pub fn made(asked: Asked) -> Job {
    let Asked { seed, tiles, segments } = asked;
    let mut state = seed;
    let mut draw_below = |n: u32| {
        state = state.wrapping_mul(1_664_525).wrapping_add(1_013_904_223);
        i64::from((state >> 16) % n)
    };
    let line = |k| {
        let slot = k * 8 * tiles / segments;
        let [x, y, mult, cover] = [16, 16, 33, 33].map(&mut draw_below);
        [slot / 8, slot % 8, x, y, 1, mult, cover - 16]
    };
    Job {
        head: [0, tiles, 0, tiles],
        lines: (0..segments).map(line).collect(),
        layers: (0..8).map(|id| [id, 0, 0, 0, 0, 0, 0, 256]).collect(),
    }
}

/// What a line asks for, or nothing where number 10 applies.
fn read(text: &[u8]) -> Option<Asked> {
    let words = str::from_utf8(text).ok()?.strip_suffix('\n')?.split(' ');
    // A number is what it prints to: no leading zero, no plus.
    let number = |word: &str| word.parse().ok().filter(|number: &i64| number.to_string() == word);
    let [seed, tiles, segments] = words.map(number).collect::<Option<Vec<_>>>()?[..] else {
        return None;
    };
    let is_asked = (1..=MOST_TILES).contains(&tiles) && (1..=MOST_SEGMENTS).contains(&segments);
    Some(Asked { seed: seed.try_into().ok()?, tiles, segments }).filter(|_| is_asked)
}

fn answer(text: &[u8]) -> Vec<u8> {
    read(text).map_or(b"refused 10\n".to_vec(), |asked| made(asked).text())
}

fn any_asked(random: &mut Random) -> Asked {
    let mut within = |most: i64| match random.below(6) {
        0 => 1,
        1 => most,
        2 => random.within(1..=most.min(16)),
        _ => random.within(1..=most),
    };
    let (tiles, segments) = (within(MOST_TILES), within(MOST_SEGMENTS));
    let seed = if random.once_in(4) { random.pick(&[0, 1, 115, 116, u32::MAX]) } else { random.word() as u32 };
    Asked { seed, tiles, segments }
}

fn line(asked: Asked) -> Vec<u8> {
    format!("{} {} {}\n", asked.seed, asked.tiles, asked.segments).into_bytes()
}

/// The line with a number at an edge of its range or past it.
fn at_an_edge(random: &mut Random, asked: Asked) -> Vec<u8> {
    let Asked { seed, tiles, segments } = asked;
    let mut words = [i64::from(seed), tiles, segments].map(|number| number.to_string());
    let place = random.below(3);
    words[place] = random
        .pick(match place {
            0 => &["0", "4294967295", "4294967296", "9999999999", "10000000000", "42949672950", "-1", "-0", "00"],
            1 => &["0", "1", "4095", "4096", "4100", "10000", "-1", "-0", "01"],
            _ => &["0", "1", "512", "513", "520", "1000", "-1", "-0", "01"],
        })
        .to_string();
    (words.join(" ") + "\n").into_bytes()
}

/// The line with a byte more, less or changed, a field more or less, or another line behind it.
fn damaged(random: &mut Random, asked: Asked) -> Vec<u8> {
    let mut text = line(asked);
    let at = random.below(text.len());
    match random.below(8) {
        0 => drop(text.remove(at)),
        1 => text.insert(at, random.pick(b" 0+-\t\r\n")),
        2 => text[at] = random.pick(b" 0+-\t\r\n,x\0\xFF"),
        3 => text.truncate(at),
        4 => text.extend(line(asked)),
        5 => drop(text.splice(text.len() - 1.., b" 1\n".iter().copied())),
        6 => text = [b"0".to_vec(), text].concat(),
        _ => text.push(random.pick(b"\n 0\r\0")),
    }
    text
}

fn compare_line(kind: &mut Kind, text: &[u8]) {
    let expected = answer(text);
    kind.note(if read(text).is_some() { "made" } else { "refused by 10" });
    let (ours, ends_well) = printed("load", text);
    kind.case(ends_well && ours == expected, || {
        let [given, expected, ours] = [text, &expected[..], &ours[..]].map(String::from_utf8_lossy);
        format!("{given:?}: expected {expected:?}, the program {ours:?}")
    });
}

/// A path below crates/.
fn place(name: &str) -> PathBuf {
    PathBuf::from(env!("CARGO_MANIFEST_DIR")).join("../../crates").join(name)
}

/// What the program `loads` prints: for each of its files the name, and the answer.
fn answer_files() -> Vec<u8> {
    let names = fs::read_to_string(place("loads/args")).expect("crates/loads/args");
    let answered = |name: &str| {
        let text = fs::read(place("loads/data").join(name)).expect("crates/loads/data");
        [name.as_bytes(), b"\n", &answer(&text)].concat()
    };
    names.lines().flat_map(answered).collect()
}

/// Writes what the programs print: `load` for the line that its crate gives it, and `loads` for its files.
pub fn write() {
    let text = fs::read(place("load/stdin")).expect("crates/load/stdin");
    fs::write(place("load/stdout"), answer(&text)).expect("crates/load/stdout");
    fs::write(place("loads/stdout"), answer_files()).expect("crates/loads/stdout");
}

/// A tenth as many loads as other cases, each also with a number at an edge and with its line damaged: every case is a
/// process.
pub fn compare(tally: &mut Tally) {
    let count = tally.share(10);
    tally.kind("made loads", |kind| {
        for _ in 0..count {
            let asked = any_asked(&mut kind.random);
            compare_line(kind, &line(asked));
            let text = at_an_edge(&mut kind.random, asked);
            compare_line(kind, &text);
        }
        let stored = |name: &str| fs::read(place(name)).expect(name);
        kind.case(answer(&stored("load/stdin")) == stored("load/stdout"), || {
            "crates/load/stdout has another text".to_string()
        });
        kind.case(answer_files() == stored("loads/stdout"), || "crates/loads/stdout has another text".to_string());
    });
    tally.kind("made loads, damaged lines", |kind| {
        for _ in 0..count {
            let asked = any_asked(&mut kind.random);
            let text = damaged(&mut kind.random, asked);
            compare_line(kind, &text);
        }
    });
    tally.kind("the row program, made loads", |kind| {
        for _ in 0..count {
            let text = made(any_asked(&mut kind.random)).text();
            check(kind, &text);
        }
    });
}
