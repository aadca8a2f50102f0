//! Right beside wrong: two traces of one job, by the right program and by one that a patch of docs/tour made wrong, with
//! what differs marked.

use std::{collections::BTreeMap, fmt::Write};

use tile_rows::Cover;

use super::{
    colors, document,
    document::{escaped, term},
    pictures,
    trace_text::{self, Painting, Queue, Traced},
};

/// The page of two traces, under the name of the mistake and with what it is.
pub fn page(name: &str, manual: &str, right: &str, wrong: &str) -> String {
    let (right, wrong) = (trace_text::read(right), trace_text::read(wrong));
    let mut body = format!(
        "<h1>Right beside wrong: {}</h1>\n<p>Both rows were really worked: the left one by the program <code>trace</code>, \
         the right one by the same program built with the patch of that name (<code>docs/tour/wrong {} JOB trace</code>). \
         What differs is marked by a double border and the word 'differs'.</p>\n{}",
        escaped(&name.replace('_', " ")),
        escaped(name),
        summary(&right, &wrong)
    );
    for (number, tile) in &right {
        body += &both(*number, tile, wrong.get(number));
    }
    document::page(name, manual, &body)
}

/// The tiles in a line each, and which of them differ.
fn summary(right: &BTreeMap<i32, Traced>, wrong: &BTreeMap<i32, Traced>) -> String {
    let mut text = String::from(
        "<table class=\"steps sum\"><thead><tr><th>tile</th><th>right</th><th>wrong</th><th></th></tr></thead>\n",
    );
    for (number, tile) in right {
        let other = wrong.get(number);
        let told = other.map_or("not reached", |tile| &tile.line);
        let what = match other {
            None => "differs: not reached",
            Some(other) if other == tile => "the same",
            Some(other) if other.line != tile.line => "differs",
            Some(_) => "differs inside",
        };
        let class = if what == "the same" { "" } else { " class=\"differs\"" };
        writeln!(
            text,
            "<tr{class}><td><a href=\"#both-{number}\">{number}</a></td><td><code>{}</code></td><td><code>{}</code></td><td>{what}</td></tr>",
            escaped(&tile.line),
            escaped(told)
        )
        .expect("a string takes every text");
    }
    text + "</table>\n<p>A line says: tile, decision, listed, shown, octets, carried.</p>\n"
}

/// One tile, right and wrong.
fn both(number: i32, right: &Traced, wrong: Option<&Traced>) -> String {
    let empty = Traced { line: "not reached".to_string(), ..Traced::default() };
    let other = wrong.unwrap_or(&empty);
    format!(
        "<section class=\"both\" id=\"both-{number}\"><h2>Tile {number}</h2>\n<div class=\"two\">\n<div><h3>Right</h3>{}</div>\n\
         <div class=\"wrong\"><h3>Wrong</h3>{}</div></div></section>\n",
        side(right, other),
        side(other, right)
    )
}

fn side(tile: &Traced, other: &Traced) -> String {
    let block = |name: &str, is_same: bool, text: String| {
        let (class, told) = if is_same { ("", "") } else { (" differs", " <b class=\"told\">differs</b>") };
        format!("<div class=\"block{class}\"><p>{name}{told}</p>{text}</div>\n")
    };
    [
        block("line", tile.line == other.line, format!("<code>{}</code>", escaped(&tile.line))),
        block(&format!("words of its {}", term("part")), tile.words == other.words, words(&tile.words)),
        block("taken in", tile.taken_in == other.taken_in, queue(&tile.taken_in)),
        block("painted", tile.paintings == other.paintings, paintings(&tile.paintings, &other.paintings)),
        block("handed on", tile.handed_on == other.handed_on, queue(&tile.handed_on)),
    ]
    .concat()
}

fn words(words: &[String]) -> String {
    match words.len() {
        0 => "<small>none</small>".to_string(),
        count => {
            let first: String = words.iter().take(8).map(|word| short(word)).collect();
            let rest = if count > 8 { format!("and {} more", count - 8) } else { String::new() };
            format!("{count}<small>{first}{rest}</small>")
        }
    }
}

/// A word by its tile x and layer.
fn short(word: &str) -> String {
    let fields: Vec<&str> = word.split(' ').collect();
    match fields[..] {
        [_, _, tile_x, layer, x, y, ..] => format!("tile x {tile_x}, layer {layer}, column {x}, row {y}<br>"),
        _ => String::new(),
    }
}

fn queue(queue: &Queue) -> String {
    if queue.is_empty() {
        return "<small>nothing</small>".to_string();
    }
    let widest = queue.iter().flat_map(|(_, covers)| covers).map(|cover| cover.abs()).max().unwrap_or(0).max(16);
    let one = |(id, covers): &(u32, [i32; 16])| {
        let cover = Cover(covers.map(|cover| cover as i8));
        let color = colors::hex(colors::at(*id as usize));
        format!(
            "<div class=\"carry\">layer {id} {}{}</div>",
            pictures::bars(&cover, widest, &color),
            pictures::cover_told(&cover)
        )
    };
    queue.iter().map(one).collect()
}

/// The paintings; a pixel whose weight is another in the same painting of the other side is framed.
fn paintings(own: &[Painting], others: &[Painting]) -> String {
    if own.is_empty() {
        return "<small>nothing</small>".to_string();
    }
    let one = |(at, painting): (usize, &Painting)| {
        let before = own[..at].iter().filter(|other| other.id == painting.id).count();
        let other = others.iter().filter(|other| other.id == painting.id).nth(before);
        let color = colors::hex(colors::at(painting.id as usize));
        let differs = |x: usize, y: usize| other.is_none_or(|other| other.weights[y][x] != painting.weights[y][x]);
        let picture =
            pictures::weights(&painting.weights, &color, &format!("weights of layer {}", painting.id), differs);
        format!("<div class=\"carry\">layer {}, mark {} {picture}</div>", painting.id, escaped(&painting.mark))
    };
    own.iter().enumerate().map(one).collect()
}
