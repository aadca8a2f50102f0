//! Frames: what each tile keeps from frame to frame, why, and where the keep rule repaints though the kept picture would
//! be wrong.

use std::{collections::BTreeMap, fmt::Write};

use tile_rows::{settle, CachedTile, Color, Decision, Frame, Func, Refusal, Row, Settled, TileHistory};

use super::{
    super::support::driven::{work_in, Tile, FRAME},
    bitmap, composed, document,
    document::escaped,
    input::Input,
    lanes::swatch,
};

/// A tile in a frame: as the Rust's caller has it, with a cached tile alone, and by the keep rule.
#[derive(Clone, Debug)]
pub struct Kept {
    pub tile: Tile,
    pub why: String,
    pub before: CachedTile,
    pub after: CachedTile,
    pub settled: Option<Settled>,
    /// What the display shows of the tile, and what it would show drawn afresh.
    pub shows: Vec<[u8; 3]>,
    pub due: Vec<[u8; 3]>,
    pub by_rule: Decision,
}

impl Kept {
    pub fn is_wrong(&self) -> bool {
        self.shows != self.due
    }
}

/// A frame that was worked.
#[derive(Clone, Debug)]
pub struct Shot {
    pub tiles: Vec<Kept>,
    pub refusal: Option<Refusal>,
}

/// What is kept of each tile of a row.
#[derive(Default)]
struct Display {
    cached: BTreeMap<i32, CachedTile>,
    pixels: BTreeMap<i32, Vec<[u8; 3]>>,
    histories: BTreeMap<i32, TileHistory>,
}

/// The frames of a row, worked one after the other.
pub fn worked(frames: &[Input]) -> Vec<Shot> {
    let mut display = Display::default();
    (0..).zip(frames).map(|(number, input)| display.frame(number, input)).collect()
}

impl Display {
    fn frame(&mut self, number: u64, input: &Input) -> Shot {
        let mut shot = Shot { tiles: Vec::new(), refusal: None };
        let open = || Row::open(&input.segments, &input.table, input.row, input.tiles.clone());
        let (mut row, mut ruled) = match (open(), open()) {
            (Ok(row), Ok(ruled)) => (row, ruled),
            (Err(refusal), _) | (_, Err(refusal)) => return Shot { refusal: Some(refusal), ..shot },
        };
        for tile in input.due.clone() {
            match self.tile(number, input, &mut row, &mut ruled, tile) {
                Ok(kept) => shot.tiles.push(kept),
                Err(refusal) => return Shot { refusal: Some(refusal), ..shot },
            }
        }
        shot
    }

    fn tile(
        &mut self,
        number: u64,
        input: &Input,
        row: &mut Row<'_>,
        ruled: &mut Row<'_>,
        tile: i32,
    ) -> Result<Kept, Refusal> {
        let frame = Frame { previous_clear: (number > 0).then_some(FRAME.clear), ..FRAME };
        let cached = self.cached.entry(tile).or_default();
        let before = *cached;
        let worked = work_in(row, tile, &frame, Some(cached))?;
        let due = composed::pixels(input, &worked);
        let history = self.histories.entry(tile).or_default();
        let by_rule = history.work(ruled, tile, number, FRAME.clear)?.decision;
        let mut settled = None;
        if let Decision::Solid { .. } = worked.decision {
            settled = Some(settle(Some(cached), display_bytes(input, &worked))?);
        }
        if let Decision::Solid { .. } = by_rule {
            history.settle(display_bytes(input, &worked))?;
        }
        let after = *cached;
        let shows = self.pixels.entry(tile).or_insert_with(|| due.clone());
        if worked.decision != Decision::None {
            shows.clone_from(&due);
        }
        let why = reason(input, &worked, before, number > 0);
        Ok(Kept { tile: worked, why, before, after, settled, shows: shows.clone(), due, by_rule })
    }
}

/// The four display bytes of a solid tile: the shown draws mixed over the clear colour as the Rust does. A job's colours
/// are all black.
fn display_bytes(input: &Input, tile: &Tile) -> [u8; 4] {
    let mut mixed = FRAME.clear.numbers();
    for entry in tile.list.iter().filter(|entry| entry.listed.is_shown()) {
        if let Some(Func::Draw(style)) = input.known(entry.listed.id).map(|known| known.layer.func) {
            let Color { r, g, b, a } = style.fill.color();
            for (channel, new) in mixed.iter_mut().zip([r, g, b]) {
                *channel += (new - *channel) * a;
            }
        }
    }
    let byte = |linear: f32| {
        let linear = f64::from(linear);
        let curved = if linear <= 0.003_130_8 { 12.92 * linear } else { 1.055 * linear.powf(1.0 / 2.4) - 0.055 };
        // Cut and not rounded, but for what the curve itself is short of.
        (curved * 255.0 + 1e-6) as u8
    };
    [byte(mixed[0]), byte(mixed[1]), byte(mixed[2]), 255]
}

/// Why a tile is kept, or drawn.
fn reason(input: &Input, tile: &Tile, before: CachedTile, is_later: bool) -> String {
    let changed: Vec<String> =
        tile.list.iter().filter(|entry| entry.listed.is_changed).map(|entry| entry.listed.id.to_string()).collect();
    let count = before.layer_count();
    let is_same = count == Some(tile.list.len() as u32);
    let words = |ids: &[String]| {
        if ids.len() == 1 {
            format!("layer {}", ids[0])
        } else {
            format!("layers {}", ids.join(", "))
        }
    };
    match tile.decision {
        Decision::None if changed.is_empty() && is_same => {
            "kept by the first pass: as many layers as before, none of them changed, the same clear colour".to_string()
        }
        Decision::None => {
            "kept by the full-cover pass: from the top down to the layer that hides all below it nothing is \
                           changed"
                .to_string()
        }
        _ if !is_later || count.is_none() => "drawn: nothing was kept of it".to_string(),
        _ if !changed.is_empty() => format!("drawn: {} changed", words(&changed)),
        _ if !is_same => format!("drawn: {} layers were listed before, now {}", count.unwrap_or(0), tile.list.len()),
        _ if input.known.is_empty() => "drawn".to_string(),
        _ => "drawn: no pass keeps it".to_string(),
    }
}

/// The page of frames; each has a name and what it is.
pub fn page(title: &str, manual: &str, story: &str, names: &[String], frames: &[Input]) -> String {
    let mut body = format!("<h1>{}</h1>\n<p>{story}</p>\n{LEGEND}", escaped(title));
    for ((name, input), shot) in names.iter().zip(frames).zip(worked(frames)) {
        body += &told(name, input, &shot);
    }
    document::page(title, manual, &body)
}

const LEGEND: &str = "<p>For each tile: what is decided as the Rust decides with a cached tile, and why; the eight cached \
    bytes before and after (tag: 1 a colour is kept, 2 a count, 3 both; three bytes of the count; four display bytes); what \
    the display then shows, and what it would show drawn afresh; and what the keep rule decides (in Rust \
    <code>TileHistory</code>). The pictures are in the page's colours over white.</p>\n";

fn told(name: &str, input: &Input, shot: &Shot) -> String {
    let mut text = format!("<section class=\"frame\"><h2>{}</h2>\n<ul class=\"layers\">", escaped(name));
    for known in input.known.iter().rev() {
        let id = known.layer.id;
        let changed = if known.layer.is_unchanged { "unchanged" } else { "changed" };
        write!(text, "<li>{} <small>{}, <b>{changed}</b></small></li>", swatch(input, id), input.words(id))
            .expect("a string takes every text");
    }
    text += "</ul>\n<table class=\"list frames\"><thead><tr><th>tile</th><th>decision</th><th>cached before</th>\
             <th>cached after</th><th>shows</th><th>due</th><th>by the keep rule</th></tr></thead>\n";
    shot.tiles.iter().for_each(|kept| text += &line(kept));
    text += "</table>\n";
    if let Some(refusal) = shot.refusal {
        text += &document::refused("The row ends", refusal);
    }
    text + "</section>\n"
}

fn line(kept: &Kept) -> String {
    let Kept { tile, why, before, after, settled, by_rule, .. } = kept;
    let settled = match settled {
        Some(Settled::Write) => "<small>settled: write</small>",
        Some(Settled::Keep) => "<small>settled: keep</small>",
        None => "",
    };
    let picture = |pixels: &[[u8; 3]], told: &str| {
        let address = bitmap::address(16, pixels);
        format!("<img class=\"kept\" src=\"{address}\" width=\"48\" height=\"48\" alt=\"{told}\">")
    };
    let (class, wrong) =
        if kept.is_wrong() { ("wrong", "<b class=\"told\">kept with a wrong picture</b>") } else { ("", "") };
    let rule = match (tile.decision, by_rule) {
        (Decision::None, Decision::None) => "kept too".to_string(),
        (Decision::None, other) => format!("<b>{}</b><small>drawn afresh</small>", other.word()),
        (_, other) => other.word().to_string(),
    };
    format!(
        "<tr class=\"{class}\"><th>tile {}</th><td data-name=\"decision\">{}<small>{why}</small>{settled}</td>\
         <td data-name=\"cached before\">{}</td><td data-name=\"cached after\">{}</td><td data-name=\"shows\">{}{wrong}</td>\
         <td data-name=\"due\">{}</td><td data-name=\"by the keep rule\">{rule}</td></tr>\n",
        tile.tile,
        tile.decision.word(),
        bytes(before),
        bytes(after),
        picture(&kept.shows, "what the tile shows"),
        picture(&kept.due, "what it would show drawn afresh")
    )
}

fn bytes(tile: &CachedTile) -> String {
    let words = tile.0.map(|byte| byte.to_string()).join(" ");
    format!("<code>{words}</code>")
}

/// Frames of job texts or figure rows: a layer whose record and segments are those of the frame before is unchanged.
pub fn with_flags(frames: Vec<Input>) -> Vec<Input> {
    let mut flagged: Vec<Input> = Vec::new();
    for input in frames {
        let next = match flagged.last() {
            None => input,
            Some(before) => {
                let same: Vec<u32> =
                    input.known.iter().map(|known| known.layer.id).filter(|&id| is_same(before, &input, id)).collect();
                input.with_unchanged(|id| same.contains(&id))
            }
        };
        flagged.push(next);
    }
    flagged
}

fn is_same(before: &Input, input: &Input, id: u32) -> bool {
    let record = |input: &Input| input.known(id).map(|known| tile_rows::Layer { is_unchanged: false, ..known.layer });
    let segments = |input: &Input| {
        let own = input.segments.iter().filter(|segment| segment.layer_id() == id);
        let mut words: Vec<_> = own.map(|segment| format!("{:?}", segment.fields())).collect();
        words.sort_unstable();
        words
    };
    record(before) == record(input) && segments(before) == segments(input)
}
