//! The rows of a plate, as `print_row` and `for_each_row` choose them. The words lent here have tile x -1 and each its
//! place as its layer: so the layers that a row opens with tell which segments it was given.

use std::{collections::BTreeSet, sync::Mutex};

use super::super::*;
use super::{cover_of, row::segments_of};
use crate::{
    cpu::{buffer::layout::LinearLayout, RGBA},
    table::Table,
};

use layer_workbench::reach::queue;

/// What stays in the queue where a row is skipped. No place is as large.
const SKIPPED: u32 = u32::MAX;

/// The bytes of a buffer where nothing is written: the clear colour has others.
const UNWRITTEN: u8 = 0xA5;

/// The places of the segments that `print_row` hands on for row j, or nothing where it skips the row.
pub fn row_of(words: &[u64], j: usize, crop: Option<(usize, usize)>) -> Option<Vec<usize>> {
    let carry = CoverCarry { cover: cover_of([0; 16]), layer_id: SKIPPED };
    PAINTER_WORKBENCH.with(|pair| pair.borrow_mut().1.init([carry]));
    print_row::<Table, LinearLayout>(
        &segments_of(words),
        RGBA,
        Color::default(),
        &crop.map(rect_of),
        &Table::new(&[]),
        j,
        (&mut [] as &mut [Slice<'_, u8>]).chunks_exact_mut(1),
        None,
        None,
        None,
    );
    PAINTER_WORKBENCH.with(|pair| {
        let pair = pair.borrow();
        let layers = || queue(&pair.1).iter().map(|carry| carry.layer_id);
        (!layers().any(|layer| layer == SKIPPED)).then(|| layers().map(|layer| layer as usize).collect())
    })
}

/// What `for_each_row` does with a plate of one column of tiles: the places of all segments that come up, and the rows
/// that are written. A row that a crop skips keeps its bytes.
pub fn seen_in(words: &[u64], height: usize, crop: Option<(usize, usize)>) -> (BTreeSet<usize>, Vec<usize>) {
    let seen = Seen::default();
    let mut buffer = vec![UNWRITTEN; height * 16 * 64];
    for_each_row(
        &mut LinearLayout::new(16, 64, height * 16),
        &mut buffer,
        RGBA,
        None,
        None,
        None,
        &segments_of(words),
        Color::default(),
        &crop.map(rect_of),
        &seen,
    );
    let rows = buffer.chunks_exact(16 * 64).enumerate();
    let written = rows.filter(|(_, row)| row.iter().any(|&byte| byte != UNWRITTEN)).map(|(j, _)| j);
    (seen.0.into_inner().unwrap(), written.collect())
}

fn rect_of((start, end): (usize, usize)) -> Rect {
    Rect { hor: 0..1, vert: start..end }
}

/// Any layer is a draw; those that are asked for are kept.
#[derive(Default)]
struct Seen(Mutex<BTreeSet<usize>>);

impl LayerProps for Seen {
    fn get(&self, id: u32) -> Cow<'_, Props> {
        self.0.lock().unwrap().insert(id as usize);
        Cow::Owned(Props { fill_rule: FillRule::NonZero, func: Func::Draw(Style::default()) })
    }

    fn is_unchanged(&self, _: u32) -> bool {
        false
    }
}
