//! The job text of the row program: three blocks, each a line of names and then lines of whole numbers.

use tile_rows::{Fields, LayerTable, PixelSegment, Refusal};

const NAMES: [&str; 3] =
    ["row tiles from to", "layer rule clip span clipped fill mode alpha", "tile_x layer x y rows mult cover"];

const LONGEST_TEXT: usize = 65_536;
const LAYERS: usize = 64;
const LINES: usize = 512;
const SEGMENTS: i32 = 2_048;

/// A job as its text has it: value lines, fields in the order of their names.
#[derive(Clone, Debug)]
pub struct Job {
    pub row: i32,
    pub tiles: i32,
    pub from: i32,
    pub to: i32,
    pub layers: Vec<[i32; 8]>,
    pub lines: Vec<[i32; 7]>,
}

impl Job {
    /// The job of a text, or refusal 10. What the numbers 2, 3 and 4 judge is not judged here.
    pub fn read(text: &[u8]) -> Result<Job, Refusal> {
        parse(text).ok_or(Refusal::JobText)
    }

    /// The layer table. Every layer counts as changed; of its colour only alpha is not 0. A number below 0 is above
    /// every range as a word, so a wrong code stays one.
    pub fn table(&self) -> LayerTable {
        let words = |&[id, rule, clip, span, clipped, fill, mode, _]: &[i32; 8]| {
            [id, rule, clip, span, clipped, fill, mode, 0].map(|number| number as u32)
        };
        let color = |layer: &[i32; 8]| [0.0, 0.0, 0.0, layer[7] as f32 / 256.0];
        LayerTable::from_words(
            self.layers.iter().flat_map(words).collect(),
            self.layers.iter().flat_map(color).collect(),
            self.layers.len(),
        )
    }

    /// The row's segments, each line repeated downward. Those of a row number out of range are packed for row 0:
    /// opening refuses the number before it looks at them.
    pub fn segments(&self) -> Result<Vec<PixelSegment>, Refusal> {
        let tile_y = if (0..=2046).contains(&self.row) { self.row as i16 } else { 0 };
        let repeated = |&[tile_x, layer, x, y, rows, mult, cover]: &[i32; 7]| {
            (y..y + rows).map(move |y| {
                PixelSegment::new(Fields {
                    layer_id: layer as u32,
                    tile_x: tile_x as i16,
                    tile_y,
                    local_x: x as u8,
                    local_y: y as u8,
                    double_area_multiplier: mult as u8,
                    cover: cover as i8,
                })
            })
        };
        self.lines.iter().flat_map(repeated).collect()
    }

    /// The tiles that are worked: those of from..to that the row has.
    pub fn due(&self) -> std::ops::Range<i32> {
        self.from..self.to.min(self.tiles)
    }
}

fn parse(text: &[u8]) -> Option<Job> {
    if text.len() > LONGEST_TEXT {
        return None;
    }
    // LF ends every line, the last one too.
    let text = std::str::from_utf8(text).ok()?.strip_suffix('\n')?;
    let lines: Vec<&str> = text.split('\n').collect();
    let starts: Vec<usize> = (0..lines.len()).filter(|&at| NAMES.contains(&lines[at])).collect();
    let [0, second, third] = starts[..] else { return None };
    if [lines[0], lines[second], lines[third]] != NAMES {
        return None;
    }
    let [[row, tiles, from, to]] = values(&lines[1..second])?[..] else { return None };
    let layers = values(&lines[second + 1..third])?;
    let lines = values(&lines[third + 1..])?;
    let job = Job { row, tiles, from, to, layers, lines };
    is_job(&job).then_some(job)
}

/// Lines of so many numbers, parted by one space.
fn values<const N: usize>(lines: &[&str]) -> Option<Vec<[i32; N]>> {
    let line = |line: &&str| line.split(' ').map(number).collect::<Option<Vec<i32>>>()?.try_into().ok();
    lines.iter().map(line).collect()
}

/// A whole number of seven digits at most, without leading zeros; a minus only before one that is not 0.
fn number(field: &str) -> Option<i32> {
    let digits = field.strip_prefix('-').unwrap_or(field);
    let is_spelled = (1..=7).contains(&digits.len()) && digits.bytes().all(|byte| byte.is_ascii_digit());
    if !is_spelled || (digits.starts_with('0') && field != "0") {
        return None;
    }
    field.parse().ok()
}

fn is_job(job: &Job) -> bool {
    job.layers.len() <= LAYERS
        && job.lines.len() <= LINES
        && job.layers.iter().all(is_layer)
        && job.lines.iter().all(is_line)
        && job.lines.iter().map(|line| line[4]).sum::<i32>() <= SEGMENTS
}

/// Alpha is 0 to 256; a clip has 0 in clipped, fill, mode and alpha; a draw has span 0.
fn is_layer(&[_, _, clip, span, clipped, fill, mode, alpha]: &[i32; 8]) -> bool {
    (0..=256).contains(&alpha) && (clip != 1 || [clipped, fill, mode, alpha] == [0; 4]) && (clip != 0 || span == 0)
}

/// Each field within its width, and no row past the tile's last.
fn is_line(&[tile_x, layer, x, y, rows, mult, cover]: &[i32; 7]) -> bool {
    (-1..=4094).contains(&tile_x)
        && (0..1 << 21).contains(&layer)
        && (0..16).contains(&x)
        && (0..16).contains(&y)
        && (1..=16 - y).contains(&rows)
        && (0..64).contains(&mult)
        && (-32..32).contains(&cover)
}
