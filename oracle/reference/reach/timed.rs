//! The painter as it is timed: every layer is painted as a clip, so that its coverages are computed and stored, and
//! nothing is blended.

use std::hint::black_box;

use super::super::*;
use super::{
    cover_of,
    recorder::exchanged,
    row::{carry_of, context, Frame, Segment},
};
use crate::{
    cpu::{buffer::layout::LinearLayout, RGBA},
    plain::Carry,
    table::Table,
};

/// The real painter. Layers are painted with id 0: so the clip stays, and its mask is written over, not built again.
/// It has no type parameter, so it is compiled here with what it calls, and not anew for each caller.
pub struct ClipPainter {
    painter: Painter,
    rules: [Props; 2],
    /// The masks, where they are kept, exchanged: only where results are compared, never where they are timed.
    pub planes: Option<Vec<[f32; 256]>>,
}

impl Default for ClipPainter {
    fn default() -> Self {
        let rules = [FillRule::NonZero, FillRule::EvenOdd].map(|fill_rule| Props { fill_rule, func: Func::Clip(0) });
        Self { painter: Painter::new(), rules, planes: None }
    }
}

impl ClipPainter {
    /// One layer in one tile, as `drive_tile_painting` paints it.
    #[inline(never)]
    pub fn paint(&mut self, part: &[Segment], cover: [i8; 16], rule: u32) {
        self.clear_cells();
        for &segment in part {
            self.acc_segment(segment);
        }
        self.acc_cover(cover_of(cover));
        self.paint_as_clip(rule as usize);
    }

    fn paint_as_clip(&mut self, rule: usize) -> Cover {
        let cover = self.painter.paint_layer(0, 0, 0, &self.rules[rule], false);
        let (mask, _) = self.painter.clip.as_ref().expect("a clip layer leaves a clip");
        if let Some(planes) = &mut self.planes {
            planes.push(exchanged(black_box(mask)));
        } else {
            black_box(mask);
        }
        cover
    }
}

impl LayerPainter for ClipPainter {
    fn clear_cells(&mut self) {
        self.painter.clear_cells();
    }

    fn acc_segment(&mut self, segment: Segment) {
        self.painter.acc_segment(segment);
    }

    fn acc_cover(&mut self, cover: Cover) {
        self.painter.acc_cover(cover);
    }

    /// There are no colours.
    fn clear(&mut self, _: Color) {}

    fn paint_layer(&mut self, _: usize, _: usize, _: u32, props: &Props, _: bool) -> Cover {
        self.paint_as_clip(props.fill_rule as usize)
    }
}

/// Goes through rows as `paint_tile_row` does, with a painter of clips and no display: one after the other, from tile
/// row 0 on.
pub struct TimedRows {
    /// Each row's segments, and where those of the first tile begin, which `paint_tile_row` knows from its opening.
    rows: Vec<(Vec<Segment>, usize)>,
    table: Table,
    frame: Frame,
    workbench: LayerWorkbench,
    pub painter: ClipPainter,
}

impl TimedRows {
    pub fn new(rows: Vec<Vec<Segment>>, table: Table, frame: Frame) -> Self {
        let begun = |segments: Vec<Segment>| {
            let start = segments.partition_point(|segment| segment.tile_x() < 0);
            (segments, start)
        };
        let rows = rows.into_iter().map(begun).collect();
        Self { rows, table, frame, workbench: LayerWorkbench::new(), painter: ClipPainter::default() }
    }

    /// The opening of each row, and the work on each of the tiles.
    #[inline(never)]
    pub fn run(&mut self, tiles: usize) {
        let Self { rows, table, frame, workbench, painter } = self;
        for (tile_y, (segments, start)) in rows.iter().enumerate() {
            open(painter, workbench, table, tile_y, segments, tiles);
            let mut left = &segments[*start..];
            for tile in 0..tiles {
                let count = crate::cpu::search_last_by_key(left, tile as i16, |segment| segment.tile_x())
                    .map_or(0, |last| last + 1);
                let (segments, rest) = left.split_at(count);
                left = rest;
                let context = context(table, tile, tile_y, segments, frame, None);
                black_box(workbench.drive_tile_painting(painter, &context));
            }
        }
    }

    /// What the last row hands on, or opens with where there is no tile.
    pub fn queue(&self) -> Vec<Carry> {
        layer_workbench::reach::queue(&self.workbench).iter().map(carry_of).collect()
    }
}

/// `paint_tile_row` with no tile.
fn open(
    painter: &mut ClipPainter,
    workbench: &mut LayerWorkbench,
    table: &Table,
    tile_y: usize,
    segments: &[Segment],
    tiles: usize,
) {
    painter.painter.paint_tile_row::<Table, LinearLayout>(
        workbench,
        tile_y,
        segments,
        table,
        RGBA,
        Color::default(),
        None,
        None,
        (&mut [] as &mut [Slice<'_, u8>]).chunks_exact_mut(1),
        &Some(Rect { hor: 0..tiles, vert: tile_y..tile_y + 1 }),
        None,
    );
}
