//! The layer table as the painter asks it.

use std::borrow::Cow;

use crate::{
    cpu::painter::LayerProps,
    math::{AffineTransform, Point},
    plain::{color_of, Record, MODES, RULES},
    styling::{Fill, Func, GradientBuilder, Image, Props, Style, Texture},
};

pub struct Table {
    records: Vec<(Record, Props)>,
}

impl Table {
    pub fn new(records: &[Record]) -> Self {
        Self { records: records.iter().map(|record| (*record, props_of(record))).collect() }
    }

    /// The same layers in grey, opaque where they were: which colours are mixed plays no part in the passes.
    pub fn recolored(&self) -> Self {
        let recolored = |record: &Record| Record {
            color: [0.5, 0.5, 0.5, if record.color[3] == 1.0 { 1.0 } else { 0.5 }],
            ..*record
        };
        Self::new(&self.records.iter().map(|(record, _)| recolored(record)).collect::<Vec<_>>())
    }

    pub fn record(&self, id: u32) -> Option<&Record> {
        self.find(id).map(|(record, _)| record)
    }

    fn find(&self, id: u32) -> Option<&(Record, Props)> {
        let at = self.records.binary_search_by_key(&id, |(record, _)| record.id);
        at.ok().map(|i| &self.records[i])
    }
}

impl LayerProps for Table {
    fn get(&self, id: u32) -> Cow<'_, Props> {
        Cow::Borrowed(&self.find(id).expect("a listed layer is in the table").1)
    }

    fn is_unchanged(&self, id: u32) -> bool {
        self.find(id).expect("a listed layer is in the table").0.unchanged == 1
    }
}

fn props_of(record: &Record) -> Props {
    let func = match record.func {
        1 => Func::Clip(record.span as usize),
        _ => Func::Draw(Style {
            is_clipped: record.clipped == 1,
            fill: fill_of(record),
            blend_mode: MODES[record.mode as usize],
        }),
    };
    Props { fill_rule: RULES[record.rule as usize], func }
}

fn fill_of(record: &Record) -> Fill {
    let color = color_of(record.color);
    match record.fill {
        0 => Fill::Solid(color),
        1 => {
            let mut builder = GradientBuilder::new(Point::new(0.0, 0.0), Point::new(16.0, 16.0));
            builder.color(color).color(color);
            Fill::Gradient(builder.build().expect("two stops"))
        }
        _ => Fill::Texture(Texture {
            transform: AffineTransform { ux: 1.0, uy: 0.0, vx: 0.0, vy: 1.0, tx: 0.0, ty: 0.0 },
            image: Image::from_srgba(&[[0, 0, 0, 255]], 1, 1).expect("one pixel"),
        }),
    }
}
