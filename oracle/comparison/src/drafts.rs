//! Random jobs for the row program.

use std::collections::BTreeMap;

use crate::{
    given::LAYER_LIMIT,
    job_reader::{Job, LAYERS, LINES, SEGMENTS},
    random::Random,
};

const LAST_TILE: i64 = 4094;
const LAST_LAYER: i64 = LAYER_LIMIT as i64;

/// A well-formed job: mostly one that no condition refuses, at times spoiled by one, at times as large as a text may
/// say.
pub fn any_job(random: &mut Random) -> Job {
    let (first, tiles) = any_tiles(random);
    let head = any_head(random, first, tiles);
    let layers = any_layers(random);
    let rules: Vec<[i64; 2]> = layers.iter().map(|&[id, rule, ..]| [id, rule]).collect();
    let is_wound = random.once_in(2);
    let mut draft = Draft {
        random,
        is_wide: true,
        first,
        end: first + tiles,
        loads: BTreeMap::new(),
        job: Job { head, layers, lines: Vec::new() },
    };
    if !draft.random.once_in(12) {
        for [id, rule] in rules {
            draft.is_wide = is_wound || rule == 1;
            draft.draw(id);
        }
    }
    let mut job = draft.job;
    job.lines.sort_by_key(|line| (line[0], line[1]));
    match random.below(40) {
        0 => grow_layers(&mut job, LAYERS),
        1 => grow_lines(&mut job, LINES),
        2 => grow_segments(&mut job, SEGMENTS),
        21 => crowd(random, &mut job),
        3..=20 => spoil(random, &mut job),
        _ => (),
    }
    job
}

/// Around 256 layers with segments in one tile, or left of the first; the table has few of them.
fn crowd(random: &mut Random, job: &mut Job) {
    let tile = random.pick(&[-1, job.head[2].min(LAST_TILE)]);
    let layers = random.within(250..=262);
    job.lines = (0..layers).map(|id| [tile, id, 0, 0, 1, 0, 0]).collect();
}

/// The first tile and how many there are: few, at times the last ones, rarely all.
fn any_tiles(random: &mut Random) -> (i64, i64) {
    let few = 1 + random.below(6) as i64;
    match random.below(200) {
        0 => (0, LAST_TILE + 1),
        1..=20 => (LAST_TILE + 1 - few, few),
        21..=40 => (random.within(1..=LAST_TILE - 8), few),
        _ => (0, few),
    }
}

/// Row, tiles, from and to.
fn any_head(random: &mut Random, first: i64, tiles: i64) -> [i64; 4] {
    let end = first + tiles;
    let from = if random.once_in(3) { random.within(first..=end) } else { first };
    let to = if random.once_in(3) { random.within(from..=end) } else { end };
    let tiles = match random.below(12) {
        0 | 1 => random.within(from..=to),
        2 => random.pick(&[0, -1, 1, 9_999_999, -9_999_999]),
        _ => to,
    };
    [random.pick(&[0, 1, 77, 2046]), tiles, from, to]
}

/// Ids ascending with gaps, at times up to the last one there is; clips, clipped draws and draws in any arrangement.
fn any_layers(random: &mut Random) -> Vec<[i64; 8]> {
    let count = match random.below(14) {
        0 => 0,
        1 => 7 + random.below(LAYERS - 6),
        _ => 1 + random.below(6),
    };
    let clips = random.pick(&[0, 2, 4]);
    let step = random.pick(&[1, 1, 2, 5, 1000]);
    let mut id = random.below(4) as i64;
    let mut layers = Vec::new();
    for _ in 0..count {
        layers.push(any_layer(random, id, clips));
        id += random.within(1..=step);
    }
    if let (Some(layer), true) = (layers.last_mut(), random.once_in(10)) {
        layer[0] = LAST_LAYER;
    }
    layers
}

/// A layer; of eight, `clips` are clips, and as many of the draws are clipped.
fn any_layer(random: &mut Random, id: i64, clips: usize) -> [i64; 8] {
    let rule = random.below(2) as i64;
    if random.below(8) < clips {
        let span = if random.once_in(6) { LAST_LAYER } else { random.below(6) as i64 };
        return [id, rule, 1, span, 0, 0, 0, 0];
    }
    let clipped = i64::from(random.below(8) < clips);
    let fill = if random.once_in(8) { random.within(1..=2) } else { 0 };
    let mode = if random.once_in(5) { random.within(0..=15) } else { 0 };
    let alpha = if random.once_in(3) { random.pick(&[0, 1, 64, 128, 255]) } else { 256 };
    [id, rule, 0, 0, clipped, fill, mode, alpha]
}

/// A job whose lines are being drawn, with the absolute covers of each layer and pixel row so far: of those above 0, and
/// those below. In every other job no NonZero carry is above 16, as in the rows of scene.rs.
struct Draft<'r> {
    random: &'r mut Random,
    first: i64,
    end: i64,
    /// Whether the layer's covers may add up to more than 16.
    is_wide: bool,
    loads: BTreeMap<(i64, i64), [i64; 2]>,
    job: Job,
}

impl Draft<'_> {
    fn draw(&mut self, layer: i64) {
        match self.random.below(8) {
            0 => (),
            1 => self.noise(layer),
            2 => {
                self.noise(layer);
                self.band(layer);
            }
            _ => self.band(layer),
        }
    }

    /// A tile of the job or one beside it; at times tile -1.
    fn tile(&mut self) -> i64 {
        if self.random.once_in(6) {
            return -1;
        }
        self.random.within(self.first - 1..=self.end).min(LAST_TILE)
    }

    /// Full covers from one tile on, in all rows or some, that end in a later tile or never.
    fn band(&mut self, layer: i64) {
        let (start, end) = (self.tile(), self.tile());
        let cover = self.random.pick(if self.is_wide { &[16, 16, 16, -16, 31, -32, 8] } else { &[16, 16, 16, -16, 8] });
        let windings = if self.is_wide { self.random.pick(&[1, 1, 2, 2, 3]) } else { 1 };
        let y = if self.random.once_in(4) { self.random.within(0..=15) } else { 0 };
        let (x, mult) = (self.random.within(0..=15), self.random.within(0..=32));
        for _ in 0..windings {
            self.add([start, layer, x, y, 16 - y, mult, cover]);
            if end > start {
                self.add([end, layer, x, y, 16 - y, mult, if cover == -32 { 31 } else { -cover }]);
            }
        }
    }

    fn noise(&mut self, layer: i64) {
        for _ in 0..self.random.below(20) {
            let (tile, x, y) = (self.tile(), self.random.within(0..=15), self.random.within(0..=15));
            let rows = if self.random.once_in(2) { 1 } else { self.random.within(1..=16 - y) };
            let covers = if self.is_wide { -32..=31 } else { -8..=8 };
            let (mult, cover) = (self.random.within(0..=63), self.random.within(covers));
            self.add([tile, layer, x, y, rows, mult, cover]);
        }
    }

    /// A line, unless there are too many, or one of its pixel rows would grow too heavy or its carries too wide.
    fn add(&mut self, line: [i64; 7]) {
        let [_, layer, _, y, rows, _, cover] = line;
        let load = |y: i64| {
            let mut load = self.loads.get(&(layer, y)).copied().unwrap_or_default();
            load[usize::from(cover < 0)] += cover.abs();
            load
        };
        let is_heavy = |[above, below]: [i64; 2]| above + below > 127 || !self.is_wide && above.max(below) > 16;
        let is_full = self.job.lines.len() == LINES || self.job.segments() + rows > SEGMENTS;
        if is_full || (y..y + rows).any(|y| is_heavy(load(y))) {
            return;
        }
        let loads: Vec<_> = (y..y + rows).map(|y| ((layer, y), load(y))).collect();
        self.loads.extend(loads);
        self.job.lines.push(line);
    }
}

/// More layers, up to a count. A job whose last id is the last there is gets ids that are out of range.
pub fn grow_layers(job: &mut Job, count: usize) {
    let next = job.layers.last().map_or(0, |layer| layer[0] + 1);
    let missing = count.saturating_sub(job.layers.len()) as i64;
    job.layers.extend((next..next + missing).map(|id| [id, 0, 0, 0, 0, 0, 0, 256]));
}

/// A line without cover that may stand behind all others.
fn blank(job: &Job, rows: i64) -> [i64; 7] {
    let layer = job.layers.last().map_or(0, |layer| layer[0].clamp(0, LAST_LAYER));
    let (tile, layer) = job.lines.last().map_or((job.head[2].clamp(-1, LAST_TILE), layer), |line| (line[0], line[1]));
    [tile, layer, 0, 0, rows, 0, 0]
}

pub fn grow_lines(job: &mut Job, count: usize) {
    while job.lines.len() < count {
        job.lines.push(blank(job, 1));
    }
}

pub fn grow_segments(job: &mut Job, count: i64) {
    while job.segments() < count {
        job.lines.push(blank(job, (count - job.segments()).min(16)));
    }
}

/// Spoils a job in a way that one of the numbers 2, 3, 4, 8 and 9 judges, or that none does.
fn spoil(random: &mut Random, job: &mut Job) {
    let [_, _, from, to] = job.head;
    match random.below(14) {
        0 => job.head[0] = random.pick(&[-1, 2046, 2047, 2048, 9_999_999, -9_999_999]),
        1 => job.head[2] = random.pick(&[-1, 0, to, to + 1, -9_999_999, 9_999_999]),
        2 => job.head[3] = random.pick(&[4095, 4096, from, from - 1, 9_999_999]),
        3 | 4 => spoil_order(random, job),
        5 | 6 => spoil_layers(random, job),
        7..=9 => spoil_ids(random, job),
        _ => weigh(random, job),
    }
}

/// Neighbours out of their order, those of one layer and tile among them, or any two.
fn spoil_order(random: &mut Random, job: &mut Job) {
    if job.lines.len() > 1 {
        let one = random.below(job.lines.len() - 1);
        let other = if random.once_in(3) { random.below(job.lines.len()) } else { one + 1 };
        job.lines.swap(one, other);
    }
}

/// A code, span or id at or past the end of its range, or ids that do not ascend.
fn spoil_layers(random: &mut Random, job: &mut Job) {
    if job.layers.is_empty() {
        return;
    }
    let count = job.layers.len();
    let (at, other) = (random.below(count), random.below(count));
    if random.once_in(3) {
        let id = job.layers[at][0];
        job.layers[other][0] = id;
        return;
    }
    if random.once_in(3) {
        job.layers.swap(at, other);
        return;
    }
    let layer = &mut job.layers[at];
    let field = random.pick(if layer[2] == 1 { &[0, 1, 2, 3, 3] } else { &[0, 1, 2, 4, 5, 6] });
    let past = [LAST_LAYER, 1, 1, LAST_LAYER, 1, 2, 15][field] + 1;
    layer[field] = random.pick(&[-1, past - 1, past, past + 1, 9_999_999, -9_999_999]);
    // The rules of the text hold still.
    match layer[2] {
        0 => layer[3] = 0,
        1 => layer[4..].fill(0),
        _ => (),
    }
}

/// A layer that the table lacks.
fn spoil_ids(random: &mut Random, job: &mut Job) {
    if job.layers.is_empty() {
        return;
    }
    let at = random.below(job.layers.len());
    if random.once_in(2) {
        job.layers.remove(at);
    } else if !job.lines.is_empty() {
        let at = random.below(job.lines.len());
        job.lines[at][1] = random.pick(&[0, 1, 2, 3, 4, LAST_LAYER]);
        job.lines.sort_by_key(|line| (line[0], line[1]));
    }
}

/// One pixel row of a layer with covers of 127 or of 128, or beyond that.
fn weigh(random: &mut Random, job: &mut Job) {
    if job.lines.is_empty() {
        return;
    }
    let at = random.below(job.lines.len());
    let [tile, layer, x, y, ..] = job.lines[at];
    let is_here = |line: &&[i64; 7]| line[1] == layer && (line[3]..line[3] + line[4]).contains(&y);
    let load: i64 = job.lines.iter().filter(is_here).map(|line| line[6].abs()).sum();
    let mut missing = random.pick(&[127, 128, 128, 129, 160, 200]) - load;
    while missing > 0 && job.lines.len() < LINES && job.segments() < SEGMENTS {
        let cover = missing.min(31);
        job.lines.insert(at, [tile, layer, x, y, 1, 32, cover]);
        missing -= cover;
    }
}
