//! The layer table: what the painter asks of a layer.

use std::fmt;

use crate::{cause, exports, BlendMode, Cause, Color, Fill, FillRule, Refusal, Style, TileList};

/// What a layer does.
#[derive(Clone, Copy, Debug, PartialEq)]
pub enum Func {
    /// It is drawn.
    Draw(Style),
    /// It cuts the clipped draws of the `span` layers above it.
    Clip {
        /// How many ids above its own it reaches, 0 to 2,097,151.
        span: u32,
    },
}

/// A record of the table.
#[derive(Clone, Copy, Debug, PartialEq)]
pub struct Layer {
    /// 0 to 2,097,151; a layer lies above those of lower ids.
    pub id: u32,
    /// Which windings are inside.
    pub rule: FillRule,
    /// What it does.
    pub func: Func,
    /// Whether nothing of it changed since the last frame.
    pub is_unchanged: bool,
}

impl Layer {
    /// A changed draw by NonZero.
    #[must_use]
    pub const fn draw(id: u32, style: Style) -> Layer {
        Layer { id, rule: FillRule::NonZero, func: Func::Draw(style), is_unchanged: false }
    }

    /// A changed clip by NonZero.
    #[must_use]
    pub const fn clip(id: u32, span: u32) -> Layer {
        Layer { id, rule: FillRule::NonZero, func: Func::Clip { span }, is_unchanged: false }
    }

    /// The same layer by another fill rule.
    #[must_use]
    pub const fn with_rule(self, rule: FillRule) -> Layer {
        Layer { rule, ..self }
    }

    /// The same layer, of which nothing changed since the last frame, or something did.
    #[must_use]
    pub const fn unchanged(self, is_unchanged: bool) -> Layer {
        Layer { is_unchanged, ..self }
    }

    /// The layer of a record's words and colour; none where a code is out of its range.
    fn from_words(words: &[u32], color: &[f32]) -> Option<Layer> {
        let &[id, rule, func, span, clipped, fill, blend_mode, unchanged] = words else { return None };
        if cause::record_fault(words).is_some() {
            return None;
        }
        let color = Color::from(<[f32; 4]>::try_from(color).ok()?);
        let style = Style {
            is_clipped: clipped == 1,
            fill: [Fill::Solid(color), Fill::Gradient, Fill::Texture][fill as usize],
            blend_mode: BlendMode::try_from(blend_mode).ok()?,
        };
        let func = if func == 1 { Func::Clip { span } } else { Func::Draw(style) };
        Some(Layer { id, rule: FillRule::try_from(rule).ok()?, func, is_unchanged: unchanged == 1 })
    }

    /// Its words in the table: id, rule, func, span, clipped, fill, blend mode, unchanged.
    pub(crate) fn words(&self) -> [u32; 8] {
        let unchanged = u32::from(self.is_unchanged);
        match self.func {
            Func::Draw(Style { is_clipped, fill, blend_mode }) => {
                [self.id, self.rule.code(), 0, 0, u32::from(is_clipped), fill.code(), blend_mode.code(), unchanged]
            }
            Func::Clip { span } => [self.id, self.rule.code(), 1, span, 0, 0, 0, unchanged],
        }
    }

    pub(crate) fn color(&self) -> Color {
        match self.func {
            Func::Draw(Style { fill: Fill::Solid(color), .. }) => color,
            _ => Color::default(),
        }
    }
}

/// The layer table as the library reads it: eight words and four floats a record, made once.
///
/// Making one judges nothing; [`judge`](LayerTable::judge) and every call that is lent the table do.
#[derive(Clone, Default)]
pub struct LayerTable {
    words: Vec<u32>,
    colors: Vec<f32>,
    count: usize,
}

impl LayerTable {
    /// The table of these layers, in their order.
    pub fn new(layers: &[Layer]) -> LayerTable {
        LayerTable {
            words: layers.iter().flat_map(Layer::words).collect(),
            colors: layers.iter().flat_map(|layer| layer.color().numbers()).collect(),
            count: layers.len(),
        }
    }

    /// A table of words and colours that were made elsewhere: eight words a record (id, rule, func, span, clipped,
    /// fill, blend mode, unchanged), four floats a record, and how many records there are.
    #[must_use]
    pub fn from_words(words: Vec<u32>, colors: Vec<f32>, count: usize) -> LayerTable {
        LayerTable { words, colors, count }
    }

    /// How many records it has.
    #[must_use]
    pub fn len(&self) -> usize {
        self.count
    }

    /// Whether it has no record.
    #[must_use]
    pub fn is_empty(&self) -> bool {
        self.count == 0
    }

    /// The first record of a layer; none where there is none, or where its words are no layer's.
    #[must_use]
    pub fn get(&self, id: u32) -> Option<Layer> {
        self.records().find(|(words, _)| words[0] == id).and_then(|(words, color)| Layer::from_words(words, color))
    }

    /// The layers, in their order. Records whose words are no layer's, which [`judge`](LayerTable::judge) turns down,
    /// are left out.
    pub fn iter(&self) -> impl Iterator<Item = Layer> + '_ {
        self.records().filter_map(|(words, color)| Layer::from_words(words, color))
    }

    /// Says of a layer whether nothing of it changed since the last frame. Gives whether the table has the layer.
    pub fn set_unchanged(&mut self, id: u32, is_unchanged: bool) -> bool {
        let mut records = self.words.chunks_exact_mut(8).take(self.count);
        let record = records.find(|words| words[0] == id);
        record.map(|words| words[7] = u32::from(is_unchanged)).is_some()
    }

    /// Says it of every layer.
    pub fn set_all_unchanged(&mut self, is_unchanged: bool) {
        let records = self.words.chunks_exact_mut(8).take(self.count);
        records.for_each(|words| words[7] = u32::from(is_unchanged));
    }

    fn records(&self) -> impl Iterator<Item = (&[u32], &[f32])> {
        self.words.chunks_exact(8).zip(self.colors.chunks_exact(4)).take(self.count)
    }

    /// The first of these layers that the table lacks.
    pub(crate) fn lacking(&self, mut ids: impl Iterator<Item = u32>) -> Option<Cause> {
        let has = |id: u32| self.records().any(|(words, _)| words[0] == id);
        ids.find(|&id| !has(id)).map(|layer| Cause::Missing { layer })
    }

    /// Whether a call would turn the table down.
    ///
    /// # Errors
    ///
    /// Refused by 1 where it is shorter than its count, by 4 where an id, a code or a span is not as it should be.
    pub fn judge(&self) -> Result<(), Refusal> {
        let found = |refusal: Refusal| refusal.found(|_| cause::table(&self.words, &self.colors, self.count));
        if exports::is_short(&self.words, &self.colors, self.count) {
            Err(found(Refusal::Room))
        } else if exports::is_table(&self.words, &self.colors, self.count) {
            Ok(())
        } else {
            Err(found(Refusal::Table))
        }
    }

    /// The records of a list's layers, one for each; the list was made with this table.
    pub(crate) fn listed<'a>(&'a self, list: &'a TileList) -> impl Iterator<Item = ListedRecord<'a>> {
        let mut records = self.words.chunks_exact(8);
        list.ids[..list.count]
            .iter()
            .map(move |&id| ListedRecord(records.find(|words| words[0] == id).expect("a listed layer has a record")))
    }

    pub(crate) fn lent(&self) -> (&[u32], &[f32], usize) {
        (&self.words, &self.colors, self.count)
    }
}

/// The words of a listed layer in a table that was judged.
pub(crate) struct ListedRecord<'a>(&'a [u32]);

impl ListedRecord<'_> {
    /// Which windings are inside.
    pub(crate) fn rule(&self) -> FillRule {
        if self.0[1] == 1 {
            FillRule::EvenOdd
        } else {
            FillRule::NonZero
        }
    }

    /// Of a clip, the last id that it reaches. Id and span have 21 bits each.
    pub(crate) fn clip_end(&self) -> Option<u32> {
        (self.0[2] == 1).then(|| self.0[0] + self.0[3])
    }

    /// Whether it is a clipped draw.
    pub(crate) fn is_clipped(&self) -> bool {
        self.0[2] == 0 && self.0[4] == 1
    }
}

/// The layers; of records that are none, the words.
impl fmt::Debug for LayerTable {
    fn fmt(&self, f: &mut fmt::Formatter<'_>) -> fmt::Result {
        let mut list = f.debug_list();
        for (words, color) in self.records() {
            match Layer::from_words(words, color) {
                Some(layer) => list.entry(&layer),
                None => list.entry(&(words, color)),
            };
        }
        list.finish()
    }
}

impl From<&[Layer]> for LayerTable {
    fn from(layers: &[Layer]) -> LayerTable {
        LayerTable::new(layers)
    }
}

impl FromIterator<Layer> for LayerTable {
    fn from_iter<I: IntoIterator<Item = Layer>>(layers: I) -> LayerTable {
        LayerTable::new(&layers.into_iter().collect::<Vec<_>>())
    }
}
