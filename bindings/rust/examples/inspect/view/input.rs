//! A row to look at, from a job text or from a tile row of a figure, with what its layers are called.

use std::ops::Range;

use tile_rows::{BlendMode, FillRule, Func, Layer, LayerTable, PixelSegment, Refusal};

use super::super::support::{job::Job, outline};

/// What a picture says of a layer.
#[derive(Clone, Debug, PartialEq)]
pub struct Known {
    pub layer: Layer,
    /// What its figure calls it; job texts have no names.
    pub name: Option<String>,
    /// The colour of its figure; a job text has none, and the page chooses.
    pub color: Option<[u8; 3]>,
}

/// A row with its tiles and layers.
#[derive(Clone, Debug)]
pub struct Input {
    pub row: i32,
    /// The tiles that the row is opened for.
    pub tiles: Range<i32>,
    /// Those that are worked.
    pub due: Range<i32>,
    pub segments: Vec<PixelSegment>,
    pub table: LayerTable,
    pub known: Vec<Known>,
}

impl Input {
    /// The row of a job text.
    pub fn of_job(text: &[u8]) -> Result<Input, Refusal> {
        let job = Job::read(text)?;
        let segments = job.segments()?;
        let known = job.layers.iter().map(known_record).collect();
        Ok(Input { row: job.row, tiles: job.from..job.to, due: job.due(), segments, table: job.table(), known })
    }

    /// A tile row of a figure.
    pub fn of_figure(figure: &outline::Figure, segments: &[PixelSegment], row: i16) -> Input {
        let known = |layer: &outline::Layer| Known {
            layer: Layer { id: layer.id, rule: layer.rule, func: layer.func, is_unchanged: false },
            name: (!layer.name.is_empty()).then(|| layer.name.clone()),
            color: layer.color().map(bytes_of),
        };
        Input {
            row: i32::from(row),
            tiles: 0..figure.tiles,
            due: 0..figure.tiles,
            segments: figure.row(segments, row).to_vec(),
            table: figure.table(|_| false),
            known: figure.layers.iter().map(known).collect(),
        }
    }

    /// A row of layers that are given as they are.
    pub fn of_layers(layers: &[(Layer, &str, [u8; 3])], segments: Vec<PixelSegment>, tiles: Range<i32>) -> Input {
        let known = layers
            .iter()
            .map(|&(layer, name, color)| Known { layer, name: Some(name.to_string()), color: Some(color) })
            .collect();
        let records: Vec<Layer> = layers.iter().map(|&(layer, ..)| layer).collect();
        Input { row: 0, due: tiles.clone(), tiles, segments, table: LayerTable::new(&records), known }
    }

    /// The same row with the layers that a test names called unchanged.
    pub fn with_unchanged(mut self, is_unchanged: impl Fn(u32) -> bool) -> Input {
        for known in &mut self.known {
            known.layer.is_unchanged = is_unchanged(known.layer.id);
        }
        let records: Vec<Layer> = self.known.iter().map(|known| known.layer).collect();
        self.table = LayerTable::new(&records);
        self
    }

    pub fn known(&self, id: u32) -> Option<&Known> {
        self.known.iter().find(|known| known.layer.id == id)
    }

    pub fn place(&self, id: u32) -> usize {
        self.known.iter().position(|known| known.layer.id == id).unwrap_or(0)
    }

    /// The layer's segments in a tile.
    pub fn part(&self, tile: i32, id: u32) -> Vec<PixelSegment> {
        let is_there = |segment: &&PixelSegment| i32::from(segment.tile_x()) == tile && segment.layer_id() == id;
        self.segments.iter().filter(is_there).copied().collect()
    }

    /// What a layer is, in words, with the names of its codes.
    pub fn words(&self, id: u32) -> String {
        let Some(Known { layer, .. }) = self.known(id) else { return "not in the table".to_string() };
        let rule = rule_word(layer.rule);
        match layer.func {
            Func::Clip { span } => format!("clip of span {span} (up to layer {}), {rule}", layer.id + span),
            Func::Draw(style) => {
                let fill = ["solid", "gradient", "texture"][style.fill.code() as usize];
                let kind = if style.is_clipped { "clipped draw" } else { "draw" };
                let alpha = style.fill.color().a;
                let hides = if style.is_opaque() { ", opaque" } else { "" };
                format!("{kind}, {rule}, {fill}, {:?}, alpha {alpha}{hides}", style.blend_mode)
            }
        }
    }
}

pub fn rule_word(rule: FillRule) -> &'static str {
    match rule {
        FillRule::NonZero => "NonZero",
        FillRule::EvenOdd => "EvenOdd",
    }
}

/// A record of a job text. Codes that a table has not are shown as the nearest that it has: the row is refused.
fn known_record(&[id, rule, clip, span, clipped, fill, mode, alpha]: &[i32; 8]) -> Known {
    use tile_rows::{Color, Fill, Style};
    let color = Color { r: 0.0, g: 0.0, b: 0.0, a: alpha as f32 / 256.0 };
    let fill = match fill {
        1 => Fill::Gradient,
        2 => Fill::Texture,
        _ => Fill::Solid(color),
    };
    let blend_mode = if (0..16).contains(&mode) { BlendMode::from_code(mode as u32) } else { BlendMode::Over };
    let func = match clip {
        1 => Func::Clip { span: span.max(0) as u32 },
        _ => Func::Draw(Style { is_clipped: clipped == 1, fill, blend_mode }),
    };
    let rule = if rule == 1 { FillRule::EvenOdd } else { FillRule::NonZero };
    Known { layer: Layer { id: id.max(0) as u32, rule, func, is_unchanged: false }, name: None, color: None }
}

pub fn bytes_of(color: tile_rows::Color) -> [u8; 3] {
    [color.r, color.g, color.b].map(|number| (number * 255.0).round() as u8)
}
