//! Damaged copies of job texts. Most are malformed; the others give another job.

use crate::{
    drafts::{grow_layers, grow_lines, grow_segments},
    job_reader::{Job, LAYERS, LINES, LONGEST_TEXT, SEGMENTS},
    random::Random,
};

type Damage = fn(&mut Random, &Job) -> Vec<u8>;

const DAMAGES: [(&str, Damage); 22] = [
    ("damage: a byte changed", |random, job| at_byte(random, job, |random, byte| vec![any_byte(random, byte)])),
    ("damage: a byte dropped", |random, job| at_byte(random, job, |_, _| Vec::new())),
    ("damage: a byte doubled", |random, job| at_byte(random, job, |_, byte| vec![byte; 2])),
    ("damage: a byte put in", |random, job| at_byte(random, job, |random, byte| vec![any_byte(random, byte), byte])),
    ("damage: a line dropped", |random, job| at_lines(random, job, |lines, at, _| drop(lines.remove(at)))),
    ("damage: a line doubled", |random, job| at_lines(random, job, |lines, at, _| lines.insert(at, lines[at].clone()))),
    ("damage: lines swapped", |random, job| at_lines(random, job, |lines, at, other| lines.swap(at, other))),
    ("damage: a number changed", |random, job| at_word(random, job, other_number)),
    ("damage: a number misspelled", |random, job| at_word(random, job, misspelled)),
    ("damage: a field past its range", past_range),
    ("damage: a layer's rule broken", broken_layer),
    ("damage: rows past the tile", wrong_rows),
    ("damage: CR LF", |random, job| carriage_returns(random, &job.text())),
    ("damage: no last LF", |_, job| job.text().split_last().unwrap().1.to_vec()),
    ("damage: bytes behind", bytes_behind),
    ("damage: a NUL", |random, job| at_byte(random, job, |_, byte| vec![0, byte])),
    ("damage: a long text", long_text),
    ("damage: cut short", cut_short),
    ("damage: names changed", other_names),
    ("damage: 65 layers", |_, job| grown(job, |job| grow_layers(job, LAYERS + 1))),
    ("damage: 513 lines", |_, job| grown(job, |job| grow_lines(job, LINES + 1))),
    ("damage: 2,049 segments", |_, job| grown(job, |job| grow_segments(job, SEGMENTS + 1))),
];

/// A damaged copy of the text of a job, and in which way.
pub fn damaged(random: &mut Random, job: &Job) -> (&'static str, Vec<u8>) {
    let (name, damage) = random.pick(&DAMAGES);
    (name, damage(random, job))
}

/// Another byte: a near one, one that the text knows, or any.
fn any_byte(random: &mut Random, byte: u8) -> u8 {
    match random.below(3) {
        0 => byte ^ 1,
        1 => random.pick(b"0123456789- \n\r\t+.x\0"),
        _ => random.word() as u8,
    }
}

fn at_byte(random: &mut Random, job: &Job, change: fn(&mut Random, u8) -> Vec<u8>) -> Vec<u8> {
    let mut text = job.text();
    let at = random.below(text.len());
    let bytes = change(random, text[at]);
    text.splice(at..=at, bytes);
    text
}

fn lines_of(text: &[u8]) -> Vec<Vec<u8>> {
    text.split_inclusive(|&byte| byte == b'\n').map(<[u8]>::to_vec).collect()
}

fn at_lines(random: &mut Random, job: &Job, change: fn(&mut Vec<Vec<u8>>, usize, usize)) -> Vec<u8> {
    let mut lines = lines_of(&job.text());
    let (at, other) = (random.below(lines.len()), random.below(lines.len()));
    change(&mut lines, at, other);
    lines.concat()
}

/// One word of a value line is written in another way.
fn at_word(random: &mut Random, job: &Job, change: fn(&mut Random, i64) -> String) -> Vec<u8> {
    let mut lines = lines_of(&job.text());
    let values: Vec<usize> = (0..lines.len()).filter(|&at| !lines[at][0].is_ascii_lowercase()).collect();
    let at = random.pick(&values);
    let line = String::from_utf8(lines[at].clone()).unwrap();
    let mut words: Vec<String> = line.trim_end().split(' ').map(str::to_string).collect();
    let place = random.below(words.len());
    words[place] = change(random, words[place].parse().unwrap());
    lines[at] = (words.join(" ") + "\n").into_bytes();
    lines.concat()
}

/// A neighbour, an edge of some field, or any number of seven digits.
fn other_number(random: &mut Random, number: i64) -> String {
    let edges = [
        -33, -32, -2, -1, 0, 1, 15, 16, 31, 32, 63, 64, 255, 256, 257, 2046, 2047, 4094, 4095, 4096, 2_097_151,
        2_097_152,
    ];
    let number = match random.below(4) {
        0 => number + random.pick(&[-1, 1]),
        1 => -number,
        2 => random.pick(&edges),
        _ => random.within(-9_999_999..=9_999_999),
    };
    number.to_string()
}

/// The same number, or one of too many digits, in a form that no number has.
fn misspelled(random: &mut Random, number: i64) -> String {
    match random.below(12) {
        0 => format!("0{number}"),
        1 => "-0".to_string(),
        2 => format!("+{number}"),
        3 => format!("{number}.0"),
        4 => String::new(),
        5 => "-".to_string(),
        6 => format!("--{number}"),
        7 => "00".to_string(),
        8 => format!("{number} "),
        9 => format!(" {number}"),
        10 => random.pick(&["10000000", "-10000000", "99999999", "4294967296", "18446744073709551617"]).to_string(),
        _ => random.pick(&["-01", "-00", "00000000", "0x1", "1e1", "a", "\u{661}"]).to_string(),
    }
}

/// A field of a segment at its edge or one past it, at the first line or any.
fn past_range(random: &mut Random, job: &Job) -> Vec<u8> {
    let ranges = [(-1, 4094), (0, 2_097_151), (0, 15), (0, 15), (1, 16), (0, 63), (-32, 31)];
    let mut job = job.clone();
    if job.lines.is_empty() {
        job.lines.push([0, 0, 0, 0, 1, 0, 0]);
    }
    let (at, field) = (random.below(job.lines.len()), random.below(7));
    let (least, most) = ranges[field];
    job.lines[at][field] = random.pick(&[least, most, least - 1, most + 1, least - 1, most + 1, 9_999_999]);
    job.text()
}

fn broken_layer(random: &mut Random, job: &Job) -> Vec<u8> {
    let mut job = job.clone();
    if job.layers.is_empty() {
        job.layers.push([0; 8]);
    }
    let at = random.below(job.layers.len());
    let layer = &mut job.layers[at];
    match random.below(4) {
        0 => layer[7] = random.pick(&[-1, 257, 9_999_999, 256, 0]),
        1 => layer[2] = random.pick(&[0, 1, 2, -1]),
        2 => layer[3] = random.pick(&[0, 1, -1, 2_097_151, 2_097_152]),
        _ => layer[4 + random.below(4)] = random.pick(&[0, 1, 2, -1]),
    }
    job.text()
}

fn wrong_rows(random: &mut Random, job: &Job) -> Vec<u8> {
    let mut job = job.clone();
    if job.lines.is_empty() {
        job.lines.push([0, 0, 0, 0, 1, 0, 0]);
    }
    let at = random.below(job.lines.len());
    let y = job.lines[at][3];
    job.lines[at][4] = random.pick(&[17 - y, 17 - y, 16 - y, 0, -1, 17]);
    job.text()
}

/// Of all lines, or of one.
fn carriage_returns(random: &mut Random, text: &[u8]) -> Vec<u8> {
    let mut lines = lines_of(text);
    let (at, all) = (random.below(lines.len()), random.once_in(2));
    for (place, line) in lines.iter_mut().enumerate() {
        if all || place == at {
            line.insert(line.len() - 1, b'\r');
        }
    }
    lines.concat()
}

fn bytes_behind(random: &mut Random, job: &Job) -> Vec<u8> {
    let behind: &[u8] =
        random.pick(&[&b"\n"[..], b" ", b"\0", b"0", b"0 0\n", b"row tiles from to\n", b"0 0 0 0 1 0 0", b"\x1a"]);
    [job.text(), behind.to_vec()].concat()
}

/// A text around the longest that is read, or far beyond it.
fn long_text(random: &mut Random, job: &Job) -> Vec<u8> {
    let len = random.pick(&[LONGEST_TEXT - 1, LONGEST_TEXT, LONGEST_TEXT + 1, LONGEST_TEXT + 2, 70_000, 200_000]);
    let filling: &[u8] = random.pick(&[&b"\n"[..], b" ", b"\0", b"0 0 0 0 1 0 0\n", b"9"]);
    let mut text = job.text();
    while text.len() < len {
        text.extend(filling);
    }
    text.truncate(len);
    text
}

fn cut_short(random: &mut Random, job: &Job) -> Vec<u8> {
    let mut text = job.text();
    let len = if random.once_in(8) { 0 } else { random.below(text.len()) };
    text.truncate(len);
    if random.once_in(2) {
        text.push(b'\n');
    }
    text
}

/// A line of names with a letter in the other case, a word less, a space more, or the names of another block.
fn other_names(random: &mut Random, job: &Job) -> Vec<u8> {
    let mut lines = lines_of(&job.text());
    let names: Vec<usize> = (0..lines.len()).filter(|&at| lines[at][0].is_ascii_lowercase()).collect();
    let (at, other) = (random.pick(&names), random.pick(&names));
    let line = String::from_utf8(lines[at].clone()).unwrap();
    lines[at] = match random.below(6) {
        0 => line.to_uppercase(),
        1 => line.rsplit_once(' ').unwrap().0.to_string() + "\n",
        2 => line.replacen(' ', "  ", 1),
        3 => line.replace("tiles", "tile").replace("tile_x", "tile").replace("layer rule", "rule layer"),
        4 => line.replace('\n', " \n"),
        _ => String::from_utf8(lines[other].clone()).unwrap(),
    }
    .into_bytes();
    lines.concat()
}

fn grown(job: &Job, grow: fn(&mut Job)) -> Vec<u8> {
    let mut job = job.clone();
    grow(&mut job);
    job.text()
}
