//! Edges cut at pixel borders, and packed.
//!
//! Where an edge meets a border between two pixel columns it is cut at the nearest sixteenth of its height, so that
//! covers are whole. Pieces that follow each other in one pixel in one direction, up or down, become one. Its multiplier
//! is twice the mean distance of the outline from the pixel's right border over the piece's height, rounded; what
//! rounding leaves of the area is handed to the next piece, so that the areas of all pieces together are the outline's
//! up to the last rounding.

use tile_rows::{Fields, PixelSegment, Refusal};

use super::Point;

/// A piece of an outline inside one pixel.
#[derive(Clone, Copy, Debug, PartialEq)]
pub struct Piece {
    pub column: i64,
    pub row: i64,
    /// How many sixteenths it goes down; below 0 where it goes up.
    pub cover: i64,
    /// Twice the area between it and the pixel's right border, in squares of a sixteenth, with the cover's sign.
    pub area: f64,
    /// The ends of its edge, of the first where it has several.
    pub ends: [Point; 2],
}

/// An edge from its upper end down, and whether the outline goes up along it.
struct Edge {
    x: i64,
    y: i64,
    width: i64,
    height: i64,
    is_up: bool,
    ends: [Point; 2],
}

impl Edge {
    /// Nothing where it is level: it covers nothing.
    fn new(from: Point, to: Point) -> Option<Edge> {
        let is_up = to.y < from.y;
        let (top, bottom) = if is_up { (to, from) } else { (from, to) };
        let (x, y) = (i64::from(top.x), i64::from(top.y));
        let (width, height) = (i64::from(bottom.x) - x, i64::from(bottom.y) - y);
        (height > 0).then_some(Edge { x, y, width, height, is_up, ends: [from, to] })
    }

    /// x at a height, times the edge's own height.
    fn scaled_x(&self, y: i64) -> i64 {
        self.x * self.height + self.width * (y - self.y)
    }

    fn column_at(&self, y: i64) -> i64 {
        self.scaled_x(y).div_euclid(16 * self.height)
    }

    /// The sixteenth at which it meets the left border of a column; it is not upright.
    fn cut_at(&self, column: i64) -> i64 {
        let above = self.height * (16 * column - self.x) * self.width.signum();
        let below = self.width.abs();
        self.y + (2 * above + below).div_euclid(2 * below)
    }

    fn piece(&self, row: i64, column: i64, from: i64, to: i64) -> Piece {
        let sign = if self.is_up { -1 } else { 1 };
        let cover = sign * (to - from);
        let distances = 2 * (16 * column + 16) * self.height - self.scaled_x(from) - self.scaled_x(to);
        let area = distances as f64 / self.height as f64 * cover as f64;
        Piece { column, row, cover, area, ends: self.ends }
    }

    /// Its pieces in one pixel row, from the top down.
    fn cut_row(&self, row: i64, pieces: &mut Vec<Piece>) {
        let (mut start, end) = (self.y.max(16 * row), (self.y + self.height).min(16 * row + 16));
        let (mut column, last) = (self.column_at(start), self.column_at(end));
        let step = if column <= last { 1 } else { -1 };
        while column != last {
            let border = if step > 0 { column + 1 } else { column };
            let next = self.cut_at(border).clamp(start, end);
            pieces.push(self.piece(row, column, start, next));
            (column, start) = (column + step, next);
        }
        pieces.push(self.piece(row, last, start, end));
    }

    /// Its pieces in the direction of the outline.
    fn cut(&self) -> Vec<Piece> {
        let mut pieces = Vec::new();
        for row in self.y.div_euclid(16)..=(self.y + self.height - 1).div_euclid(16) {
            self.cut_row(row, &mut pieces);
        }
        pieces.retain(|piece| piece.cover != 0);
        if self.is_up {
            pieces.reverse();
        }
        pieces
    }
}

/// The pieces of a closed outline, those that follow each other in a pixel in one direction as one.
pub fn pieces(outline: &[Point]) -> Vec<Piece> {
    let mut pieces: Vec<Piece> = Vec::new();
    for (at, &from) in outline.iter().enumerate() {
        let to = outline[(at + 1) % outline.len()];
        for piece in Edge::new(from, to).map_or(Vec::new(), |edge| edge.cut()) {
            let place = |piece: &Piece| (piece.column, piece.row, piece.cover > 0);
            match pieces.last_mut().filter(|last| place(last) == place(&piece)) {
                Some(last) => (last.cover, last.area) = (last.cover + piece.cover, last.area + piece.area),
                None => pieces.push(piece),
            }
        }
    }
    pieces
}

/// The packed segments of a closed outline; where packing refuses one, the end of its edge that lies further out.
pub fn outline(layer_id: u32, points: &[Point], segments: &mut Vec<PixelSegment>) -> Result<(), (Point, Refusal)> {
    let mut rest = 0.0;
    for piece in pieces(points) {
        let (due, cover) = (piece.area + rest, piece.cover as f64);
        let multiplier = (due / cover).round().clamp(0.0, 32.0);
        rest = due - multiplier * cover;
        let packed = packed(layer_id, &piece, multiplier as u8);
        segments.push(packed.map_err(|refusal| (outer(piece.ends), refusal))?);
    }
    Ok(())
}

fn packed(layer_id: u32, piece: &Piece, double_area_multiplier: u8) -> Result<PixelSegment, Refusal> {
    let tile = |place: i64| i16::try_from(place.div_euclid(16)).map_err(|_| Refusal::Field);
    let local = |place: i64| place.rem_euclid(16) as u8;
    PixelSegment::new(Fields {
        layer_id,
        tile_x: tile(piece.column)?,
        tile_y: tile(piece.row)?,
        local_x: local(piece.column),
        local_y: local(piece.row),
        double_area_multiplier,
        cover: piece.cover as i8,
    })
}

/// Of two points the one that lies further outside the tiles that packing takes: -1 to 4,094 across, -1 to 2,046 down.
fn outer([from, to]: [Point; 2]) -> Point {
    let beyond = |place: i32, last: i32| (-256 - place).max(place - (256 * (last + 1) - 1)).max(0);
    let out = |point: Point| beyond(point.x, 4_094).max(beyond(point.y, 2_046));
    if out(from) >= out(to) {
        from
    } else {
        to
    }
}
