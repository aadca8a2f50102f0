//! A tile: its picture, how its part was found, and its list from the top layer down.

use std::fmt::Write;

use tile_rows::{Carry, Decision, PixelSegment, Refusal};

use super::{
    super::support::driven::{Driven, Entry, Tile},
    bitmap, composed,
    composed::Cut,
    document::{self, term, term_as},
    input::{rule_word, Input},
    lanes::{state_of, swatch},
    pictures, search, words,
};

/// A row that was driven, with what pictures need.
pub struct Scene<'a> {
    input: &'a Input,
    driven: &'a Driven,
    opening: &'a [Carry],
    refused: Option<(i32, Refusal)>,
    /// The cover that fills half the width of the bars.
    widest: i32,
}

const HEAD: &str = "<thead><tr><th></th><th>from the left</th><th>layer</th><th>segments</th><th>coverage</th>";

impl<'a> Scene<'a> {
    pub fn new(
        input: &'a Input,
        driven: &'a Driven,
        tiles: &[Tile],
        opening: &'a [Carry],
        refused: Option<(i32, Refusal)>,
    ) -> Scene<'a> {
        let carries = tiles.iter().flat_map(|tile| &tile.carries).map(|carry| carry.cover);
        let covers = tiles.iter().flat_map(|tile| &tile.list).map(|entry| entry.listed.cover).chain(carries);
        let widest = covers.flat_map(|cover| cover.0).map(|row| i32::from(row).abs()).max().unwrap_or(0).max(16);
        Scene { input, driven, opening, refused, widest }
    }

    /// The tile that is turned down, with what came to it: carries from the left and segments of its own.
    pub fn refused_tile(&self) -> String {
        let Some((tile, refusal)) = self.refused else { return String::new() };
        let carries = self.driven.tiles.last().map_or(self.opening, |tile| &tile.carries);
        let own = self.input.segments.iter().filter(|segment| i32::from(segment.tile_x()) == tile);
        let carried = carries.iter().map(|carry| carry.id);
        let mut ids: Vec<u32> = own.map(|segment| segment.layer_id()).chain(carried).collect();
        ids.sort_unstable_by(|a, b| b.cmp(a));
        ids.dedup();
        let mut text = format!(
            "<section class=\"tile\" id=\"tile-{tile}\">\n<h2>Tile {tile}: refused</h2>\n{}",
            document::refused("Its work is turned down", refusal)
        );
        text += "<table class=\"list\">\n<thead><tr><th>from the left</th><th>layer</th><th>segments</th>\
                 <th>most of a pixel row</th></tr></thead>\n";
        for id in ids {
            let part = self.input.part(tile, id);
            writeln!(
                text,
                "<tr><td class=\"flow\" data-name=\"from the left\">{}</td><th>{}<small>{}</small></th>\
                 <td data-name=\"segments\">{}</td><td data-name=\"most of a pixel row\">{}</td></tr>",
                self.carried(id, carries),
                swatch(self.input, id),
                self.input.words(id),
                segments_in_words(&part),
                most_in_words(carries.iter().find(|carry| carry.id == id), &part)
            )
            .expect("a string takes every text");
        }
        text + "</table>\n</section>\n"
    }

    /// A tile: its line as the row program prints it, its picture and its list.
    pub fn tile(&self, tile: &Tile) -> String {
        let (number, word) = (tile.tile, tile.decision.word());
        let start = words::part(&self.input.segments, number).0;
        let mut text = format!(
            "<section class=\"tile\" id=\"tile-{number}\">\n<h2>Tile {number}: {word}</h2>\n<p>{}</p>\n\
             <p>The row program prints <code class=\"line\">{}</code>: {} listed, {} shown, {} used octets, {} carried.</p>\n\
             <div class=\"head\">{}<div>{}</div></div>\n",
            decision_in_words(tile),
            tile.line(),
            tile.list.len(),
            tile.shown(),
            tile.octets(),
            tile.carries.len(),
            self.picture(tile),
            search::told(&self.input.segments, start, number)
        );
        if !tile.list.is_empty() {
            write!(text, "<table class=\"list\">\n{HEAD}<th>{}</th><th>to the right</th></tr></thead>\n", term("mark"))
                .expect("a string takes every text");
            let cuts = composed::cuts(self.input, tile);
            for at in (0..tile.list.len()).rev() {
                text += &self.entry(tile, at, &cuts);
            }
            text += "</table>\n";
        }
        text + "</section>\n"
    }

    fn picture(&self, tile: &Tile) -> String {
        let address = bitmap::address(16, &composed::pixels(self.input, tile));
        format!(
            "<figure class=\"composed\"><img src=\"{address}\" width=\"128\" height=\"128\" alt=\"tile {} composed\">\
             <figcaption>The tile as it would look: its shown draws in order, in the colours of their layers, over \
             white. A picture for people, no blending of the display stage.</figcaption></figure>",
            tile.tile
        )
    }

    /// A listed layer.
    fn entry(&self, tile: &Tile, at: usize, cuts: &[Cut]) -> String {
        let entry = &tile.list[at];
        let listed = &entry.listed;
        let id = listed.id;
        let (state, words) = state_of(listed);
        let changed = if listed.is_changed { "changed" } else { "unchanged" };
        let part = self.input.part(tile.tile, id);
        let ids: Vec<u32> = tile.list.iter().map(|entry| entry.listed.id).collect();
        let (bracket, cut) = (bracket(&ids, cuts, at), cut_in_words(cuts[at]));
        format!(
            "<tr class=\"{state}\"><td class=\"bracket {bracket}\"></td><td class=\"flow\" data-name=\"from the left\">{}</td>\
             <th>{}<small>{}, {changed}</small><b class=\"state\">{words}</b>{cut}</th>\
             <td data-name=\"segments\">{}</td><td data-name=\"coverage\">{}</td><td data-name=\"mark\">{}</td>\
             <td class=\"flow\" data-name=\"to the right\">{}</td></tr>\n",
            self.carried(id, &tile.incoming),
            swatch(self.input, id),
            self.input.words(id),
            segments_in_words(&part),
            self.coverage(tile, entry, &part),
            mark(entry, &pictures::ink(composed::color_of(self.input, id))),
            self.carried(id, &tile.carries)
        )
    }

    /// A layer's carry, as an arrow with its bars.
    fn carried(&self, id: u32, carries: &[Carry]) -> String {
        let color = pictures::ink(composed::color_of(self.input, id));
        let carry = carries.iter().find(|carry| carry.id == id);
        carry.map_or("<small>nothing</small>".to_string(), |carry| {
            let bars = pictures::bars(&carry.cover, self.widest, &color);
            format!("{}{bars}{}", pictures::arrow(&color, "carried"), pictures::cover_told(&carry.cover))
        })
    }

    /// Its coverages, and what the page's script needs to tell of a pixel.
    fn coverage(&self, tile: &Tile, entry: &Entry, part: &[PixelSegment]) -> String {
        let id = entry.listed.id;
        let plane =
            composed::plane_of(self.input, tile, entry).expect("the tile was worked, so its covers are in range");
        let rule = self.input.known(id).map(|known| known.layer.rule).unwrap_or_default();
        let told = if entry.painted.is_some() { "painted" } else { "its own; not painted" };
        let color = pictures::ink(composed::color_of(self.input, id));
        let picture = pictures::coverage(
            &plane,
            part,
            &color,
            &format!("coverages of layer {id}"),
            &entry.listed.cover,
            rule_word(rule),
        );
        format!("{picture}<small>{told}</small><small class=\"pixel\" aria-live=\"polite\"></small>")
    }
}

/// The class of the bracket beside a listed layer: from a clip up to the topmost draw that it cuts.
fn bracket(ids: &[u32], cuts: &[Cut], at: usize) -> &'static str {
    let span = |clip: usize| {
        let last = (clip..ids.len()).rev().find(|&draw| cuts[draw] == Cut::By(ids[clip]));
        last.map(|last| (clip, last))
    };
    let spans = (0..ids.len()).filter(|&place| matches!(cuts[place], Cut::Clip(_))).filter_map(span);
    let Some((clip, last)) = spans.rev().find(|&(clip, last)| (clip..=last).contains(&at)) else {
        return "";
    };
    match (at == clip, at == last, cuts[at] == Cut::By(ids[clip])) {
        (true, ..) => "clip",
        (_, true, _) => "top",
        (_, _, true) => "cut",
        _ => "past",
    }
}

fn cut_in_words(cut: Cut) -> String {
    match cut {
        Cut::By(clip) => format!("<small>cut by layer {clip}</small>"),
        Cut::Lacks => {
            "<small>it needs a clip, and the painter's clip has ended: it paints nothing (P7)</small>".to_string()
        }
        Cut::Clip(last) => format!("<small>the painter's clip after it reaches up to layer {last}</small>"),
        Cut::Free | Cut::Hidden => String::new(),
    }
}

pub fn decision_in_words(tile: &Tile) -> String {
    match tile.decision {
        Decision::None => "Nothing is done: the tile shows what the last frame left.".to_string(),
        Decision::Solid { bottom, before } => {
            let [r, g, b, a] = bottom.numbers();
            let above = match tile.shown() - before {
                0 => String::new(),
                1 => " with the colour of one shown layer mixed above it".to_string(),
                mixed => format!(" with the colours of {mixed} shown layers mixed above it"),
            };
            format!("The tile is filled with one colour: red {r}, green {g}, blue {b}, alpha {a}{above}.")
        }
        Decision::Paint => "The shown layers are painted, from the bottom up.".to_string(),
    }
}

fn segments_in_words(part: &[PixelSegment]) -> String {
    if part.is_empty() {
        return "<small>none</small>".to_string();
    }
    let mut text = format!(
        "{} <details><summary>each</summary><table class=\"each\"><tr><th>x</th><th>y</th><th>mult</th><th>cover</th></tr>",
        part.len()
    );
    for segment in part {
        let fields = segment.fields();
        let numbers = [
            fields.local_x.to_string(),
            fields.local_y.to_string(),
            fields.double_area_multiplier.to_string(),
            fields.cover.to_string(),
        ];
        write!(text, "<tr><td>{}</td></tr>", numbers.join("</td><td>")).expect("a string takes every text");
    }
    text + "</table></details>"
}

/// The pixel row with the greatest sum of absolute covers, which refusal 9 goes by.
fn most_in_words(carry: Option<&Carry>, part: &[PixelSegment]) -> String {
    let mut sums = carry.map_or([0; 16], |carry| carry.cover.0.map(|cover| i32::from(cover).abs()));
    part.iter().for_each(|segment| sums[usize::from(segment.local_y())] += i32::from(segment.cover()).abs());
    let (row, sum) = sums.iter().enumerate().rev().max_by_key(|(_, &sum)| sum).expect("16 rows");
    format!("{sum}<small>in row {row}, of 127</small>")
}

fn mark(entry: &Entry, color: &str) -> String {
    match entry.painted {
        None => "<small>not painted</small>".to_string(),
        Some((mark, _)) => {
            let octets = mark.octets();
            let plural = term_as("octet", if octets == 1 { "octet" } else { "octets" });
            format!("{}<code>{:#010x}</code><small>{octets} {plural}</small>", pictures::octets(mark, color), mark.0)
        }
    }
}
