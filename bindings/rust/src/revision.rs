//! Layer records that are sent again, and the table of those that stand.

use std::collections::BTreeSet;

use crate::{
    cause::{self, told, RecordFault},
    exports,
    table::Func,
    Cause, Condition, FillRule, Layer, LayerTable, Refusal,
};

/// What is sent of a layer.
#[derive(Clone, Copy, Debug, PartialEq)]
pub enum Sent {
    /// What the layer is from now on.
    Props {
        /// Which windings are inside.
        rule: FillRule,
        /// What it does.
        func: Func,
        /// Whether nothing of it changed since the last frame.
        is_unchanged: bool,
    },
    /// The layer is left out from now on.
    Withdrawal,
}

/// A record of a layer, with a revision: of each layer the highest stands.
#[derive(Clone, Copy, Debug, PartialEq)]
pub struct Revision {
    /// 0 to 2,097,151.
    pub layer: u32,
    /// Any number; two records of one layer have two.
    pub revision: u32,
    /// Properties, or a withdrawal.
    pub sent: Sent,
}

impl Revision {
    /// A layer as it is at a revision.
    #[must_use]
    pub const fn of(layer: Layer, revision: u32) -> Revision {
        let Layer { id, rule, func, is_unchanged } = layer;
        Revision { layer: id, revision, sent: Sent::Props { rule, func, is_unchanged } }
    }

    /// A layer that is left out from a revision on.
    #[must_use]
    pub const fn withdrawal(layer: u32, revision: u32) -> Revision {
        Revision { layer, revision, sent: Sent::Withdrawal }
    }

    /// The layer that its properties say; of a withdrawal a layer whose words and colour play no part.
    fn as_layer(&self) -> Layer {
        match self.sent {
            Sent::Props { rule, func, is_unchanged } => Layer { id: self.layer, rule, func, is_unchanged },
            Sent::Withdrawal => Layer::clip(self.layer, 0),
        }
    }
}

/// Records as the library reads them, in any order: ten words a record (id, revision, kind, rule, func, span, clipped,
/// fill, blend mode, unchanged), kind 0 with properties and 1 a withdrawal, and four floats a record.
#[derive(Clone, Debug, Default)]
pub struct Revisions {
    words: Vec<u32>,
    colors: Vec<f32>,
}

impl Revisions {
    /// These records.
    #[must_use]
    pub fn new(records: &[Revision]) -> Revisions {
        let mut revisions = Revisions::default();
        records.iter().for_each(|record| revisions.push(record));
        revisions
    }

    /// One record more.
    pub fn push(&mut self, record: &Revision) {
        let layer = record.as_layer();
        let [id, properties @ ..] = layer.words();
        self.words.extend([id, record.revision, u32::from(record.sent == Sent::Withdrawal)]);
        self.words.extend(properties);
        self.colors.extend(layer.color().numbers());
    }

    /// How many there are.
    #[must_use]
    pub fn len(&self) -> usize {
        self.words.len() / 10
    }

    /// Whether there is none.
    #[must_use]
    pub fn is_empty(&self) -> bool {
        self.words.is_empty()
    }

    /// The table of the layers that stand, ids ascending: of each layer the highest revision, withdrawn layers left out.
    ///
    /// # Errors
    ///
    /// Refused by 4 where an id or a span is out of its range, else by 15 where two records of one layer have equal
    /// revisions.
    pub fn table(&self) -> Result<LayerTable, Refusal> {
        let (mut words, mut colors) = (vec![0; 8 * self.len()], vec![0.0; 4 * self.len()]);
        let mut standing = 0;
        Refusal::judge(exports::stand(&self.words, &self.colors, &mut words, &mut colors, &mut standing))
            .map_err(|refusal| refusal.found(|condition| self.cause(condition)))?;
        words.truncate(8 * standing);
        colors.truncate(4 * standing);
        Ok(LayerTable::from_words(words, colors, standing))
    }

    /// The first record that is none, or the first that has the revision of one before.
    fn cause(&self, condition: Condition) -> Option<Cause> {
        let mut seen = BTreeSet::new();
        self.words.chunks_exact(10).enumerate().find_map(|(place, words)| {
            let (layer, revision, kind) = (words[0], words[1], words[2]);
            if condition == Condition::Revisions {
                return (!seen.insert((layer, revision))).then_some(Cause::Twins { layer, revision });
            }
            let properties: Vec<u32> = std::iter::once(layer).chain(words[3..].iter().copied()).collect();
            let fault = match kind {
                0 => cause::record_fault(&properties),
                1 => cause::record_fault(&properties[..1]),
                _ => Some(RecordFault::Kind),
            };
            fault.map(|fault| Cause::Record { record: told(place), layer, fault })
        })
    }
}
