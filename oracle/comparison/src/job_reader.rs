//! The job text of the row program, read by the scope's paragraph 'The row program' and nothing else.

const NAMES: [&str; 3] =
    ["row tiles from to", "layer rule clip span clipped fill mode alpha", "tile_x layer x y rows mult cover"];

pub const LONGEST_TEXT: usize = 65_536;
pub const LAYERS: usize = 64;
pub const LINES: usize = 512;
pub const SEGMENTS: i64 = 2_048;

/// The value lines of the three blocks, fields in the order of their names.
#[derive(Clone, Debug, Eq, PartialEq)]
pub struct Job {
    pub head: [i64; 4],
    pub layers: Vec<[i64; 8]>,
    pub lines: Vec<[i64; 7]>,
}

impl Job {
    pub fn text(&self) -> Vec<u8> {
        let [head, layers, lines] = NAMES;
        let block = |names: &str, values: Vec<String>| [vec![names.to_string()], values].concat().join("\n") + "\n";
        let blocks = [
            block(head, vec![spaced(&self.head)]),
            block(layers, self.layers.iter().map(|layer| spaced(layer)).collect()),
            block(lines, self.lines.iter().map(|line| spaced(line)).collect()),
        ];
        blocks.concat().into_bytes()
    }

    /// How many segments the lines stand for.
    pub fn segments(&self) -> i64 {
        self.lines.iter().map(|line| line[4]).sum()
    }
}

fn spaced(numbers: &[i64]) -> String {
    numbers.iter().map(i64::to_string).collect::<Vec<_>>().join(" ")
}

/// The job of a text, or nothing where number 10 applies. What the numbers 2, 3 and 4 judge is not judged here.
pub fn read(text: &[u8]) -> Option<Job> {
    if text.len() > LONGEST_TEXT {
        return None;
    }
    // Every line is ended by LF, the last one too.
    let mut lines: Vec<&[u8]> = text.split(|&byte| byte == b'\n').collect();
    if lines.pop() != Some(b"") {
        return None;
    }
    let starts: Vec<usize> =
        (0..lines.len()).filter(|&at| NAMES.iter().any(|names| names.as_bytes() == lines[at])).collect();
    let [0, second, third] = starts[..] else {
        return None;
    };
    if [lines[0], lines[second], lines[third]] != NAMES.map(str::as_bytes) {
        return None;
    }
    let [head] = values::<4>(&lines[1..second])?[..] else {
        return None;
    };
    let job = Job { head, layers: values(&lines[second + 1..third])?, lines: values(&lines[third + 1..])? };
    is_job(&job).then_some(job)
}

/// Lines of so many numbers.
fn values<const N: usize>(lines: &[&[u8]]) -> Option<Vec<[i64; N]>> {
    let line = |line: &&[u8]| -> Option<[i64; N]> {
        let numbers: Option<Vec<i64>> = line.split(|&byte| byte == b' ').map(number).collect();
        numbers?.try_into().ok()
    };
    lines.iter().map(line).collect()
}

/// A whole number of seven digits at most, without leading zeros; a minus only before one that is not 0.
fn number(field: &[u8]) -> Option<i64> {
    let text = std::str::from_utf8(field).ok()?;
    let digits = text.strip_prefix('-').unwrap_or(text);
    if !(1..=7).contains(&digits.len()) || !digits.bytes().all(|byte| byte.is_ascii_digit()) {
        return None;
    }
    if digits.starts_with('0') && text != "0" {
        return None;
    }
    text.parse().ok()
}

fn is_job(job: &Job) -> bool {
    job.layers.len() <= LAYERS
        && job.lines.len() <= LINES
        && job.layers.iter().all(is_layer)
        && job.lines.iter().all(is_line)
        && job.segments() <= SEGMENTS
}

/// Alpha is 0 to 256; a clip has 0 in clipped, fill, mode and alpha; a draw has span 0.
fn is_layer(&[_, _, clip, span, clipped, fill, mode, alpha]: &[i64; 8]) -> bool {
    (0..=256).contains(&alpha) && (clip != 1 || [clipped, fill, mode, alpha] == [0; 4]) && (clip != 0 || span == 0)
}

/// Each field within its width, and so many rows that the last is the tile's last at most.
fn is_line(&[tile_x, layer, x, y, rows, mult, cover]: &[i64; 7]) -> bool {
    (-1..=4094).contains(&tile_x)
        && (0..1 << 21).contains(&layer)
        && (0..16).contains(&x)
        && (0..16).contains(&y)
        && (1..=16 - y).contains(&rows)
        && (0..64).contains(&mult)
        && (-32..32).contains(&cover)
}
