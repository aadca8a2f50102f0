//! What every page has: its frame, refusals, and the words that it explains.

use tile_rows::Refusal;

/// A whole page. `manual` is where docs/MANUAL.md is, as the page links it.
pub fn page(name: &str, manual: &str, body: &str) -> String {
    let (name, words) = (escaped(name), explained(manual));
    format!(
        "<!doctype html>\n<html lang=\"en\">\n<head>\n<meta charset=\"utf-8\">\n\
         <meta name=\"viewport\" content=\"width=device-width\">\n<title>{name}</title>\n<style>\n{}</style>\n</head>\n\
         <body>\n<p class=\"file\">{name}</p>\n{body}\n{words}<script>\n{}</script>\n</body>\n</html>\n",
        include_str!("page.css"),
        include_str!("page.js")
    )
}

pub fn escaped(text: &str) -> String {
    text.replace('&', "&amp;").replace('<', "&lt;").replace('>', "&gt;").replace('"', "&quot;")
}

/// A refusal, in words with its number.
pub fn refused(at: &str, refusal: Refusal) -> String {
    let (number, meaning) = (refusal.number(), escaped(refusal.meaning()));
    format!("<p class=\"refusal\">{at}: <code class=\"line\">refused {number}</code> {meaning}.</p>\n")
}

/// A word that the page explains, as a link to its explanation.
pub fn term(word: &str) -> String {
    term_as(word, word)
}

pub fn term_as(word: &str, shown: &str) -> String {
    format!("<a class=\"term\" href=\"#word-{}\">{shown}</a>", word.replace(' ', "-"))
}

/// Words, what they mean, and the manual's heading.
const WORDS: [(&str, &str, &str); 10] = [
    ("tile", "16 × 16 pixels of the plate. A row of tiles is worked from left to right.", "1. The painter"),
    ("segment", "A piece of an outline inside one pixel, packed into one word of 64 bits.", "Segments"),
    (
        "cover",
        "How many sixteenths of a pixel an outline goes down (above 0) or up (below 0); for a pixel row, the sum of these.",
        "Covers and carries",
    ),
    ("part", "The words of the row that belong to one tile: places a up to b, b excluded, written [a..b).", "Segments"),
    ("carry", "What a tile hands to its right neighbour for a layer: 16 covers, one for each pixel row.", "Covers and carries"),
    (
        "d",
        "The doubled area of a pixel: 32 × (cover from the left + covers further left in its row) + multiplier × cover of \
         its own segments. 512 is one whole pixel, once around.",
        "Coverage",
    ),
    ("mark", "Which octets a draw uses, as 32 bits.", "Coverage"),
    ("octet", "Eight pixels one below the other: half a column of a tile.", "Coverage"),
    ("masked off", "Not painted since clips decide so: a draw that lacks its clip, or a clip that cuts nothing.", "The three passes"),
    (
        "passed over",
        "Not painted since an opaque layer above hides the whole tile. What is passed over or masked off is carried on \
         all the same.",
        "The three passes",
    ),
];

fn explained(manual: &str) -> String {
    let manual = escaped(manual);
    let one = |(word, meaning, heading): (&str, &str, &str)| {
        let id = word.replace(' ', "-");
        let anchor = heading.to_lowercase().replace('.', "").replace(' ', "-");
        format!(
            "<dt id=\"word-{id}\">{word}</dt><dd>{meaning} <a href=\"{manual}#{anchor}\">The manual: {heading}</a></dd>\n"
        )
    };
    format!("<section class=\"words\"><h2>Words</h2>\n<dl>\n{}</dl></section>\n", WORDS.map(one).concat())
}
