//! The tiles beside each other: a column for each tile, a line for each layer, the top one first, and an arrow for each
//! carry between two tiles.

use std::fmt::Write;

use tile_rows::{Carry, Cover, Listed, Refusal};

use super::{
    super::support::driven::Tile,
    colors, composed,
    document::{escaped, term, term_as},
    input::Input,
    pictures,
};

/// How many tiles fit beside each other on paper.
const PRINTED: usize = 7;

pub struct Lanes<'a> {
    pub input: &'a Input,
    pub tiles: &'a [Tile],
    /// The tile at which the row was turned down.
    pub refused: Option<(i32, Refusal)>,
}

/// A layer by its number, colour and pattern.
pub fn swatch(input: &Input, id: u32) -> String {
    let place = input.place(id);
    let color = colors::hex(composed::color_of(input, id));
    let pattern = colors::pattern(place);
    let name = input.known(id).and_then(|known| known.name.as_deref()).map(escaped);
    let name = name.map_or(String::new(), |name| format!(" <span class=\"name\">{name}</span>"));
    format!("<span class=\"swatch p{pattern}\" style=\"--c:{color}\"></span>layer {id}{name}")
}

/// The class of a listed layer's state, and its words.
pub fn state_of(listed: &Listed) -> (&'static str, &'static str) {
    match (listed.is_passed_over, listed.is_masked_off) {
        (true, true) => ("passed", "passed over as covered, masked off too"),
        (true, false) => ("passed", "passed over as covered"),
        (false, true) => ("masked", "masked off"),
        (false, false) => ("shown", "shown"),
    }
}

impl Lanes<'_> {
    /// Paper does not scroll: where there are many tiles, it gets a table for every few of them.
    pub fn strip(&self) -> String {
        let whole = self.lanes(self.tiles, true);
        let strip = |class: &str| {
            format!(
                "<div class=\"{class}\" role=\"region\" tabindex=\"0\" aria-label=\"the tiles of the row\">{whole}</div>\n"
            )
        };
        if self.tiles.len() <= PRINTED {
            return strip("strip") + &legend();
        }
        let parts: String = self.tiles.chunks(PRINTED).map(|tiles| self.lanes(tiles, false)).collect();
        format!("{}<div class=\"strip paper\">{parts}</div>\n{}", strip("strip screen"), legend())
    }

    fn ids(&self) -> Vec<u32> {
        let mut ids: Vec<u32> = self.tiles.iter().flat_map(|tile| &tile.list).map(|entry| entry.listed.id).collect();
        ids.sort_unstable_by(|a, b| b.cmp(a));
        ids.dedup();
        ids
    }

    /// Tiles beside each other; on the screen each is a link to its list.
    fn lanes(&self, tiles: &[Tile], linked: bool) -> String {
        let mut text = String::from("<table>\n<tr><td></td><td></td>");
        for tile in tiles {
            let word = tile.decision.word();
            text += &(head(linked, tile.tile, word, word) + "<td></td>");
        }
        let is_end = tiles.last().map(|tile| tile.tile) == self.tiles.last().map(|tile| tile.tile);
        if let Some((tile, refusal)) = self.refused.filter(|_| is_end) {
            text += &head(linked, tile, "refused", &format!("refused {}", refusal.number()));
        }
        text += "</tr>\n";
        self.ids().iter().for_each(|&id| text += &self.lane(id, tiles));
        text + "</table>"
    }

    /// A layer's line of the strip.
    fn lane(&self, id: u32, tiles: &[Tile]) -> String {
        let first = tiles.first().map_or(&[][..], |tile| &tile.incoming);
        let mut text = format!("<tr><th>{}</th><td>{}</td>", swatch(self.input, id), self.handed(id, first));
        for tile in tiles {
            let entry = tile.list.iter().find(|entry| entry.listed.id == id);
            let cell = entry.map_or(String::new(), |entry| self.cell(&entry.listed));
            write!(text, "<td class=\"at\">{cell}</td><td>{}</td>", self.handed(id, &tile.carries))
                .expect("a string takes every text");
        }
        text + "</tr>\n"
    }

    fn cell(&self, listed: &Listed) -> String {
        let (state, words) = state_of(listed);
        let color = pictures::ink(composed::color_of(self.input, listed.id));
        let has = if listed.has_segments { ", with segments" } else { "" };
        let changed = if listed.is_changed { ", changed" } else { "" };
        let dot = if listed.has_segments { "<i></i>" } else { "" };
        format!(
            "<span class=\"cell {state}\" style=\"--c:{color}\" title=\"layer {} is {words}{has}{changed}\">{dot}</span>",
            listed.id
        )
    }

    fn handed(&self, id: u32, carries: &[Carry]) -> String {
        let carry = carries.iter().find(|carry| carry.id == id);
        let told = |cover: &Cover| format!("layer {id} hands on {}", pictures::cover_in_words(cover));
        let color = pictures::ink(composed::color_of(self.input, id));
        carry.map_or(String::new(), |carry| pictures::arrow(&color, &told(&carry.cover)))
    }
}

fn head(linked: bool, tile: i32, class: &str, word: &str) -> String {
    let name = if linked {
        format!("a class=\"choose {class}\" href=\"#tile-{tile}\"")
    } else {
        format!("span class=\"choose {class}\"")
    };
    format!("<th><{name}>{tile}<b>{word}</b></{}></th>", if linked { "a" } else { "span" })
}

fn legend() -> String {
    format!(
        "<p class=\"legend\"><span class=\"cell shown\"></span> shown \
         <span class=\"cell masked\"></span> {} <span class=\"cell passed\"></span> {} as covered \
         <span class=\"cell shown\"><i></i></span> with segments in the {}. An arrow is a {}, 16 {}. \
         <span class=\"keys\">Choose a tile by mouse, or by <kbd>←</kbd> <kbd>→</kbd> <kbd>Home</kbd> <kbd>End</kbd>; \
         <kbd>A</kbd> shows all. What is longer than its box scrolls.</span> The numbers of a pixel, {} and its weight: point at a coverage, or go to it by <kbd>Tab</kbd> and the arrow keys. \
         <span class=\"needs-script\">Choosing a tile and the numbers of a pixel need a script: without it all tiles are shown, and \
         <code>trace JOB areas</code> prints the numbers.</span></p>\n",
        term("masked off"),
        term("passed over"),
        term("tile"),
        term("carry"),
        term_as("cover", "covers"),
        term("d")
    )
}
