//! What the program `trace` prints, read: tiles with their carries, paintings and lines.

use std::collections::BTreeMap;

/// Sixteen covers for each layer, in the order of the queue. A wrong program may hand a layer on twice.
pub type Queue = Vec<(u32, [i32; 16])>;

/// A painting: which layer, its mark, and its weights by rows.
#[derive(Clone, Debug, Default, PartialEq)]
pub struct Painting {
    pub id: u32,
    pub mark: String,
    pub weights: [[u32; 16]; 16],
}

/// A tile as its trace tells it.
#[derive(Clone, Debug, Default, PartialEq)]
pub struct Traced {
    pub tile: i32,
    pub words: Vec<String>,
    pub taken_in: Queue,
    pub handed_on: Queue,
    pub paintings: Vec<Painting>,
    /// The line of the row program, or that the tile was refused.
    pub line: String,
}

/// The tiles of a trace of one job.
pub fn read(text: &str) -> BTreeMap<i32, Traced> {
    let mut tiles: Vec<Traced> = Vec::new();
    let mut reader = Reader::default();
    for line in text.lines() {
        if let Some(number) = line.strip_prefix("tile ").and_then(|number| number.parse().ok()) {
            tiles.push(Traced { tile: number, ..Traced::default() });
            reader = Reader::default();
        } else if let Some(tile) = tiles.last_mut() {
            reader.take(tile, line);
        }
    }
    tiles.into_iter().map(|tile| (tile.tile, tile)).collect()
}

/// Which lines follow, and the pixel row that was told last.
#[derive(Default)]
struct Reader {
    block: &'static str,
    row: usize,
}

impl Reader {
    fn take(&mut self, tile: &mut Traced, line: &str) {
        let words: Vec<&str> = line.split_whitespace().collect();
        match words[..] {
            ["segments:", _] => self.block = "segments",
            ["taken", "in:", _] => self.block = "taken",
            ["handed", "on:", _] => self.block = "handed",
            ["list:", _] | ["decision:", ..] => self.block = "",
            ["painted", "layer", id, "mark", mark, ..] => {
                let id = id.trim_end_matches(':').parse().unwrap_or_default();
                tile.paintings.push(Painting {
                    id,
                    mark: mark.trim_end_matches(',').to_string(),
                    ..Painting::default()
                });
                (self.block, self.row) = ("painted", 0);
            }
            ["line:", ..] => tile.line = line.trim().trim_start_matches("line: ").to_string(),
            ["refused", ..] => tile.line = line.to_string(),
            ["row", row, "d", ..] => self.row = row.parse().unwrap_or_default(),
            ["weight", ..] => self.weights(tile, &words[1..]),
            _ => self.number_line(tile, &words),
        }
    }

    /// Weights hold for their row and, until others are told, for those below it.
    fn weights(&self, tile: &mut Traced, words: &[&str]) {
        let numbers: Vec<u32> = words.iter().filter_map(|word| word.parse().ok()).collect();
        if let (Some(painting), Ok(numbers)) = (tile.paintings.last_mut(), <[u32; 16]>::try_from(numbers)) {
            painting.weights[self.row..].fill(numbers);
        }
    }

    fn number_line(&self, tile: &mut Traced, words: &[&str]) {
        if self.block == "segments" && words.first().is_some_and(|word| word.starts_with("0x")) {
            tile.words.push(words.join(" "));
            return;
        }
        let queue = match self.block {
            "taken" => &mut tile.taken_in,
            "handed" => &mut tile.handed_on,
            _ => return,
        };
        let numbers: Vec<i32> = words.iter().filter_map(|word| word.parse().ok()).collect();
        if let [id, covers @ ..] = &numbers[..] {
            if let Ok(covers) = covers.try_into() {
                queue.push((*id as u32, covers));
            }
        }
    }
}
