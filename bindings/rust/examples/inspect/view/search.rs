//! The search that ends a tile's part, step by step: by the last equal key, as the painter goes, and by the first.

use std::fmt::Write;

use tile_rows::PixelSegment;

/// A step: the words from `low` up to `high` are left, the one at `looked` is looked at, and the half that is kept.
#[derive(Clone, Debug, PartialEq, Eq)]
pub struct Step {
    pub low: usize,
    pub high: usize,
    pub looked: usize,
    pub key: i32,
    pub keeps_right: bool,
}

/// A search in what is left of a row, and where the part ends by it.
#[derive(Clone, Debug, PartialEq, Eq)]
pub struct Search {
    pub steps: Vec<Step>,
    pub end: usize,
}

/// Halves the words from `start` on. Where `is_last`, a word with the key is kept in the right half, so that the last
/// one is found; else a word with the key counts as one above it, and the halving is content with the first.
pub fn search(row: &[PixelSegment], start: usize, tile: i32, is_last: bool) -> Search {
    let key = |place: usize| i32::from(row[place].tile_x());
    let (mut low, mut high, mut steps) = (start, row.len(), Vec::new());
    while high - low > 1 {
        let looked = low + (high - low) / 2;
        let keeps_right = if is_last { key(looked) <= tile } else { key(looked) < tile };
        steps.push(Step { low, high, looked, key: key(looked), keeps_right });
        if keeps_right {
            low = looked;
        } else {
            high = looked;
        }
    }
    // Where the halving ends stands the key, or a word before it or after it.
    let end = if low < row.len() && key(low) <= tile { low + 1 } else { low };
    Search { steps, end }
}

/// Both searches beside each other.
pub fn told(row: &[PixelSegment], start: usize, tile: i32) -> String {
    let right = search(row, start, tile, true);
    let first = search(row, start, tile, false);
    let (end, wrong) = (right.end, first.end);
    let lost = end - wrong.min(end);
    let words = |count: usize| if count == 1 { "1 word".to_string() } else { format!("{count} words") };
    let differs = match lost {
        0 => "the same: no two words of this tile stand in what is left".to_string(),
        _ => format!("[{start}..{wrong}): {} of this tile would be taken for words of the next", words(lost)),
    };
    format!(
        "<details class=\"search\" open><summary>How the end of the part was found</summary>\n\
         <p>The part begins at place {start}, where the one before ended; the words from there on are halved, by their \
         tile x.</p>\n<div class=\"two\"><div><h3>By the last equal key</h3>{}<p><b>The part is [{start}..{end})</b>, {}.</p>\
         </div>\n<div class=\"wrong\"><h3>By the first equal key, the third mistake</h3>{}<p>It would be {differs}.</p></div></div>\n\
         </details>\n",
        table(&right, row, tile),
        words(end - start),
        table(&first, row, tile)
    )
}

fn table(search: &Search, row: &[PixelSegment], tile: i32) -> String {
    let mut text = String::from(
        "<table class=\"steps\"><thead><tr><th>low</th><th>high</th><th>looks at</th><th>its tile x</th><th>keeps</th></tr></thead>\n",
    );
    for Step { low, high, looked, key, keeps_right } in &search.steps {
        let sign = match key.cmp(&tile) {
            std::cmp::Ordering::Less => "&lt;",
            std::cmp::Ordering::Equal => "=",
            std::cmp::Ordering::Greater => "&gt;",
        };
        let kept = if *keeps_right { format!("right: {looked}..{high}") } else { format!("left: {low}..{looked}") };
        let layer = row[*looked].layer_id();
        writeln!(
            text,
            "<tr><td>{low}</td><td>{high}</td><td>{looked}<small>layer {layer}</small></td><td>{key} {sign} {tile}</td><td>{kept}</td></tr>"
        )
        .expect("a string takes every text");
    }
    if search.steps.is_empty() {
        text += "<tr><td colspan=\"5\">nothing to halve: at most one word is left</td></tr>\n";
    }
    text + "</table>\n"
}
