//! Whole jobs: the row program, run as a process, against the Rust.

use std::{
    io::Write,
    path::PathBuf,
    process::{Command, Stdio},
    thread,
};

use reference::{
    cpu::RGBA,
    painter::row::Frame,
    plain::{Decision, Worked},
};

use crate::{
    damages::damaged,
    drafts::any_job,
    given::{LentTable, State},
    job_reader::{read, Job},
    judge::{self, Tile},
    layers::records,
    models::{Models, Tables, Why},
    tally::{caught, Kind, Tally},
    words::Segment,
};

const NAMES: &str = "tile op listed shown octets carried\n";
const FRAME: Frame = Frame { clear: [0.0, 0.0, 0.0, 1.0], previous_clear: None, channels: RGBA };

/// A tenth as many jobs as other cases, each whole and damaged: every case is a process.
pub fn compare(tally: &mut Tally) {
    let count = tally.share(10);
    let mut jobs = Vec::new();
    tally.kind("the row program, jobs", |kind| {
        for _ in 0..count {
            let job = any_job(&mut kind.random);
            check(kind, &job.text());
            jobs.push(job);
        }
    });
    tally.kind("the row program, damaged jobs", |kind| {
        for job in &jobs {
            let (name, text) = damaged(&mut kind.random, job);
            kind.note(name);
            check(kind, &text);
        }
    });
}

/// What the row program must print.
#[derive(Default)]
pub struct Answer {
    pub text: String,
    /// The number of the refusal, 0 where there is none.
    pub number: u32,
    /// Whether the opening was accepted.
    pub is_open: bool,
    /// How many tiles were worked.
    pub tiles: usize,
    /// Of each tile that the second model judges in place of the Rust, why, and whether the Rust's answer is another one.
    pub left_out: Vec<(Why, bool)>,
}

/// The answer to a text by the Rust, or the second model, and the scope's table; nothing where one of them panics.
pub fn answer(text: &[u8]) -> Option<Answer> {
    match read(text) {
        None => Some(Answer { text: "refused 10\n".to_string(), number: 10, ..Answer::default() }),
        Some(job) => caught(|| answer_job(&job)),
    }
}

fn answer_job(job: &Job) -> Answer {
    let [row, tiles, from, to] = job.head.map(|number| number as i32);
    let (words, table) = (words_of(job), table_of(job));
    let number = judge::opening(row, from, to, &words, &table, false);
    let mut answer = Answer { text: NAMES.to_string(), number, is_open: number == 0, ..Answer::default() };
    if answer.is_open {
        let tables = Tables::new(&records(&table));
        let mut models = Models::open(row as usize, from as usize, to as usize, &words, &tables);
        for tile in from..to.min(tiles) {
            answer.number = work_refusal([row, from, to, tile], &models, &words, &table);
            if answer.number != 0 {
                break;
            }
            let judged = models.work(tile as usize, &FRAME, None);
            answer.text += &line(tile as usize, &judged.worked);
            answer.text += "\n";
            answer.tiles += 1;
            answer.left_out.extend(judged.left_out.map(|left_out| (left_out.why, left_out.is_other)));
        }
    }
    if answer.number != 0 {
        answer.text += &format!("refused {}\n", answer.number);
    }
    answer
}

/// The number that the scope's table gives for the next tile.
fn work_refusal(words: [i32; 4], models: &Models<'_>, row: &[u64], table: &LentTable) -> u32 {
    let queue = models.queue();
    let [tile_y, from, to, tile] = words.map(|word| word as u32);
    let state = State { words: [tile_y, from, to, tile, 0, 0], counts: [queue.len(), 0] };
    judge::work(&Tile { state, tile: words[3], lent_short: false, queue: &queue, tag: None }, row, table)
}

/// The segments, each line repeated downward. A row number that 2 refuses is cut to the width of its field: nothing
/// looks at it.
pub fn words_of(job: &Job) -> Vec<u64> {
    let tile_y = (job.head[0] & 2047) as i16;
    let mut words = Vec::new();
    for &[tile_x, layer, x, y, rows, mult, cover] in &job.lines {
        for y in y..y + rows {
            words.push(u64::from(&Segment::new(
                layer as u32,
                tile_x as i16,
                tile_y,
                x as u8,
                y as u8,
                mult as u8,
                cover as i8,
            )));
        }
    }
    words
}

/// Every layer counts as changed; of its colour only alpha is not 0. A code below 0 is above every range as it is lent.
fn table_of(job: &Job) -> LentTable {
    let words = |layer: &[i64; 8]| {
        let [id, rule, clip, span, clipped, fill, mode, _] = layer.map(|number| number as u32);
        [id, rule, clip, span, clipped, fill, mode, 0]
    };
    let color = |layer: &[i64; 8]| [0.0, 0.0, 0.0, layer[7] as f32 / 256.0];
    LentTable {
        layers: job.layers.iter().flat_map(words).collect(),
        colors: job.layers.iter().flat_map(color).collect(),
        count: job.layers.len(),
    }
}

/// A line of the row program: tile, decision, listed, shown, octets, carried.
pub fn line(tile: usize, worked: &Worked) -> String {
    let op = match worked.decision {
        Decision::None => "none",
        Decision::Solid { .. } => "solid",
        Decision::Paint => "paint",
    };
    let shown = worked.list.iter().skip(worked.skipped).filter(|entry| entry.shown).count();
    let octets: u32 = worked.painted.iter().map(|painted| painted.mark.count_ones()).sum();
    format!("{tile} {op} {} {shown} {octets} {}", worked.list.len(), worked.queue.len())
}

/// What a program prints for a text, and whether it ends well.
pub fn printed(program: &str, text: &[u8]) -> (Vec<u8>, bool) {
    let program = PathBuf::from(env!("CARGO_MANIFEST_DIR")).join("../../target/bin").join(program);
    let mut child = Command::new(program)
        .stdin(Stdio::piped())
        .stdout(Stdio::piped())
        .spawn()
        .expect("`tools/build` builds the programs in target/bin");
    let mut input = child.stdin.take().unwrap();
    let output = thread::scope(|scope| {
        // The program need not read a text to its end, so the pipe may close before.
        scope.spawn(move || drop(input.write_all(text)));
        child.wait_with_output().expect("the program runs")
    });
    (output.stdout, output.status.success())
}

/// One text on both sides.
pub fn check(kind: &mut Kind, text: &[u8]) {
    let Some(answer) = answer(text) else {
        kind.case(false, || format!("{}: the Rust panics", told(text)));
        return;
    };
    note(kind, text, &answer);
    answer.left_out.iter().for_each(|&(why, is_other)| kind.leave_out(why, is_other));
    let (ours, ends_well) = printed("row", text);
    kind.case(ends_well && ours == answer.text.as_bytes(), || {
        let end = if ends_well { "" } else { ", and it fails" };
        format!("{}: expected {:?}, the program {:?}{end}", told(text), answer.text, String::from_utf8_lossy(&ours))
    });
}

fn told(text: &[u8]) -> String {
    format!("{:?}", String::from_utf8_lossy(text))
}

fn note(kind: &mut Kind, text: &[u8], answer: &Answer) {
    kind.note(match (answer.number, answer.is_open, answer.tiles) {
        (0, ..) => "accepted",
        (2, ..) => "refused by 2",
        (3, ..) => "refused by 3",
        (4, ..) => "refused by 4",
        (8, _, 0) => "refused by 8 at the first tile",
        (8, ..) => "refused by 8 at a later tile",
        (9, false, _) => "refused by 9 at the opening",
        (9, _, 0) => "refused by 9 at the first tile",
        (9, ..) => "refused by 9 at a later tile",
        (10, ..) => "refused by 10",
        _ => "refused by another number",
    });
    for line in answer.text.lines() {
        match line.split(' ').nth(1) {
            Some("none") => kind.note("tiles: none"),
            Some("solid") => kind.note("tiles: solid"),
            Some("paint") => kind.note("tiles: paint"),
            _ => (),
        }
    }
    if let (Some(job), true) = (read(text), answer.number == 0) {
        note_job(kind, &job, answer.tiles);
    }
}

/// What an accepted job has that should be met.
fn note_job(kind: &mut Kind, job: &Job, tiles: usize) {
    let [row, count, from, to] = job.head;
    let layer = |is_so: fn(&[i64; 8]) -> bool| job.layers.iter().any(is_so);
    let outcomes = [
        ("with a clip", layer(|layer| layer[2] == 1)),
        ("with a clipped draw", layer(|layer| layer[4] == 1)),
        ("with NonZero", layer(|layer| layer[1] == 0)),
        ("with EvenOdd", layer(|layer| layer[1] == 1)),
        ("without layers", job.layers.is_empty()),
        ("with 64 layers", job.layers.len() == 64),
        ("without segments", job.lines.is_empty()),
        ("with 512 lines", job.lines.len() == 512),
        ("with 2,048 segments", job.segments() == 2048),
        ("with tile -1", job.lines.iter().any(|line| line[0] == -1)),
        ("with a segment in tile 4,094", job.lines.iter().any(|line| line[0] == 4094)),
        ("with tile 4,094 worked", tiles > 0 && from + tiles as i64 == 4095),
        ("with row 2,046", row == 2046),
        ("from = to", from == to),
        ("tiles below to", count < to),
        ("with 4,095 tiles worked", tiles == 4095),
    ];
    outcomes.iter().filter(|(_, is_met)| *is_met).for_each(|(outcome, _)| kind.note(outcome));
}
