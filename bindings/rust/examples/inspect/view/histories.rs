//! The histories A to H of docs/DIFFERENCES.md: a tile that is kept with a wrong picture.

use std::ops::Range;

use tile_rows::{Color, Fields, Layer, PixelSegment, Style};

use super::{frames, input::Input};

const RED: Color = Color { r: 1.0, g: 0.0, b: 0.0, a: 1.0 };
const GREEN: Color = Color { r: 0.0, g: 1.0, b: 0.0, a: 0.5 };
const BLUE: Color = Color { r: 0.0, g: 0.0, b: 1.0, a: 1.0 };

/// A layer, and from where on it is inside: a tile and a column, and where it ends.
#[derive(Clone, Copy)]
struct Piece {
    layer: Layer,
    color: Color,
    name: &'static str,
    edges: &'static [(i16, u8, i8)],
}

const FULL: &[(i16, u8, i8)] = &[(-1, 0, 16)];
const RIGHT_HALF: &[(i16, u8, i8)] = &[(0, 8, 16)];
const ENDS_IN_0: &[(i16, u8, i8)] = &[(0, 0, 16), (0, 8, -16)];

fn draw(id: u32, color: Color, name: &'static str) -> Piece {
    Piece { layer: Layer::draw(id, Style::solid(color)), color, name, edges: FULL }
}

fn clipped(id: u32, color: Color, name: &'static str) -> Piece {
    let style = Style { is_clipped: true, ..Style::solid(color) };
    Piece { layer: Layer::draw(id, style), color, name, edges: FULL }
}

fn clip(id: u32, span: u32, edges: &'static [(i16, u8, i8)]) -> Piece {
    Piece { layer: Layer::clip(id, span), color: Color::default(), name: "clip", edges }
}

fn unchanged(piece: Piece) -> Piece {
    Piece { layer: Layer { is_unchanged: true, ..piece.layer }, ..piece }
}

fn segments(pieces: &[Piece]) -> Vec<PixelSegment> {
    let mut all = Vec::new();
    for piece in pieces {
        for &(tile_x, local_x, cover) in piece.edges {
            let fields = Fields {
                layer_id: piece.layer.id,
                tile_x,
                tile_y: 0,
                local_x,
                local_y: 0,
                double_area_multiplier: 32,
                cover,
            };
            all.extend((0..16).map(|local_y| PixelSegment::new(Fields { local_y, ..fields }).expect("in its ranges")));
        }
    }
    all.sort_by(PixelSegment::compare);
    all
}

fn frame(pieces: &[Piece], tiles: Range<i32>) -> Input {
    let bytes = |color: Color| [color.r, color.g, color.b].map(|number| (number * 200.0) as u8);
    let layers: Vec<_> = pieces.iter().map(|piece| (piece.layer, piece.name, bytes(piece.color))).collect();
    Input::of_layers(&layers, segments(pieces), tiles)
}

/// What happens in a history, and the layers and tiles of each of its frames.
type Story = (&'static str, Vec<(Vec<Piece>, Range<i32>)>);

fn red() -> Piece {
    draw(1, RED, "red")
}

fn green() -> Piece {
    draw(2, GREEN, "green")
}

fn blue() -> Piece {
    draw(0, BLUE, "blue")
}

/// Two frames of one tile.
fn two(first: &[Piece], second: &[Piece]) -> Vec<(Vec<Piece>, Range<i32>)> {
    vec![(first.to_vec(), 0..1), (second.to_vec(), 0..1)]
}

/// The histories of two frames.
fn story(letter: char) -> Option<Story> {
    let (red, green, clipped_green) = (red(), green(), clipped(2, GREEN, "green"));
    Some(match letter {
        'A' => (
            "An exchange: the label above leaves while a layer comes in below, where nobody can see it. As many layers are \
             listed as before, and what hides all below it is unchanged.",
            two(&[red, green], &[blue(), unchanged(red)]),
        ),
        'B' => (
            "A widened clip: it becomes full, and so is masked off. The Rust keeps the tile; since W-208 a listed clip that \
             is changed repaints it here.",
            two(
                &[clip(1, 1, RIGHT_HALF), clipped(2, RED, "red")],
                &[clip(1, 1, FULL), unchanged(clipped(2, RED, "red"))],
            ),
        ),
        'C' => (
            "A hidden change: the label above becomes a clipped draw without a clip, and is masked off.",
            two(&[red, green], &[unchanged(red), clipped_green]),
        ),
        'D' => (
            "A clip that became a draw: the clipped label loses its clip, and is unchanged itself.",
            two(&[clip(0, 9, FULL), red, clipped_green], &[blue(), unchanged(red), unchanged(clipped_green)]),
        ),
        'E' => {
            let third = clipped(3, GREEN, "green");
            let told = "A clip that left, while a hidden layer came in.";
            (told, two(&[red, clip(2, 9, FULL), third], &[blue(), unchanged(red), unchanged(third)]))
        }
        _ => return later_story(letter),
    })
}

/// Those whose flags are true of a frame, but not of the tile's last work.
fn later_story(letter: char) -> Option<Story> {
    let (red, green, turned) = (red(), green(), draw(1, BLUE, "blue"));
    let third = Piece { edges: ENDS_IN_0, ..draw(3, BLUE, "blue") };
    Some(match letter {
        'F' => (
            "A frame without the tile: the layer turns blue in a frame whose crop leaves tile 1 out; in the next it is \
             unchanged.",
            vec![(vec![red], 0..2), (vec![turned], 0..1), (vec![unchanged(turned)], 0..2)],
        ),
        'G' => (
            "A row that is opened at another tile: layer 3 ends in tile 0; opened at tile 1 the row lists it there with a \
             carry of zeros, so that the count stays 2.",
            vec![(vec![red, green, third], 0..2), (vec![unchanged(red), unchanged(third)], 1..2)],
        ),
        'H' => (
            "A label that comes back: it is unchanged since the frame before the last, and counts as unchanged.",
            vec![
                (vec![red, green], 0..1),
                (vec![unchanged(red)], 0..1),
                (vec![unchanged(red), unchanged(green)], 0..1),
            ],
        ),
        _ => return None,
    })
}

/// The frames of a history, and what happens in it.
pub fn history(letter: char) -> Option<(&'static str, Vec<Input>)> {
    let (story, sets) = story(letter)?;
    Some((story, sets.iter().map(|(pieces, tiles)| frame(pieces, tiles.clone())).collect()))
}

/// The page of one history.
pub fn page(letter: char, manual: &str) -> Option<String> {
    let (story, inputs) = history(letter)?;
    let names: Vec<String> = (1..=inputs.len()).map(|number| format!("Frame {number}")).collect();
    Some(frames::page(&format!("History {letter}"), manual, story, &names, &inputs))
}
