//! Outlines as text, turned into packed segments. No part of what is proved: tests hold it to areas and windings.

pub mod curve;
pub mod cut;
pub mod job_text;
pub mod text;

use std::fmt;

use tile_rows::{Color, FillRule, Func, LayerTable, PixelSegment, Plate, Refusal};

/// A point in sixteenths of a pixel, y downward, and the line of the text that gives it.
#[derive(Clone, Copy, Debug, PartialEq, Eq)]
pub struct Point {
    pub x: i32,
    pub y: i32,
    pub line: usize,
}

/// A layer with its closed outlines, flattened: the last point of each is joined to its first.
#[derive(Clone, Debug)]
pub struct Layer {
    pub id: u32,
    pub rule: FillRule,
    pub func: Func,
    pub name: String,
    pub outlines: Vec<Vec<Point>>,
    /// The line that begins it.
    pub line: usize,
}

/// A plate as its text has it.
#[derive(Clone, Debug)]
pub struct Figure {
    pub rows: i16,
    pub tiles: i32,
    pub layers: Vec<Layer>,
}

/// Why a text is turned down, and where.
#[derive(Clone, Debug, PartialEq, Eq)]
pub struct Fault {
    pub line: usize,
    pub told: String,
}

impl fmt::Display for Fault {
    fn fmt(&self, f: &mut fmt::Formatter<'_>) -> fmt::Result {
        write!(f, "line {}: {}", self.line, self.told)
    }
}

impl Layer {
    /// Its colour; a clip has none.
    pub fn color(&self) -> Option<Color> {
        match self.func {
            Func::Draw(style) => Some(style.fill.color()),
            Func::Clip { .. } => None,
        }
    }

    fn record(&self) -> tile_rows::Layer {
        tile_rows::Layer { id: self.id, rule: self.rule, func: self.func, is_unchanged: false }
    }
}

impl Figure {
    /// The layer table; of each layer it says whether it is unchanged.
    pub fn table(&self, is_unchanged: impl Fn(&Layer) -> bool) -> LayerTable {
        let record = |layer: &Layer| tile_rows::Layer { is_unchanged: is_unchanged(layer), ..layer.record() };
        LayerTable::new(&self.layers.iter().map(record).collect::<Vec<_>>())
    }

    /// The packed segments of all its layers, in order.
    pub fn segments(&self) -> Result<Vec<PixelSegment>, Fault> {
        let mut segments = Vec::new();
        for layer in &self.layers {
            for outline in &layer.outlines {
                cut::outline(layer.id, outline, &mut segments).map_err(|refused| layer.fault(refused))?;
            }
        }
        segments.sort_by(PixelSegment::compare);
        Ok(segments)
    }

    /// The segments of one tile row.
    pub fn row<'a>(&self, segments: &'a [PixelSegment], row: i16) -> &'a [PixelSegment] {
        Plate::new(segments).row(row as usize)
    }
}

impl Layer {
    /// What packing refused, with the point that lies out of range, or the layer where its id does.
    fn fault(&self, (point, refusal): (Point, Refusal)) -> Fault {
        let (number, meaning) = (refusal.number(), refusal.meaning());
        if self.id >= 1 << 21 {
            return Fault { line: self.line, told: format!("layer {}: refused {number}, {meaning}", self.id) };
        }
        let Point { x, y, line } = point;
        Fault { line, told: format!("the point {x} {y} of layer {}: refused {number}, {meaning}", self.id) }
    }
}
