//! What a workbench holds: its queue, and what the passes leave of a tile's list.

use super::*;

/// A tile's list after the passes, from a workbench of its own that holds the same queue.
pub(crate) struct Passed {
    pub entries: Vec<Listed>,
    pub skipped: usize,
    pub op: ControlFlow<OptimizerTileWriteOp>,
}

pub(crate) struct Listed {
    pub id: u32,
    pub cover: Option<Cover>,
    pub has_segments: bool,
    pub changed: bool,
    pub mask: bool,
    pub skips_clipping: bool,
}

/// The list and the passes, as `drive_tile_painting` calls them.
pub(crate) fn passes<P: LayerProps>(queue: &[CoverCarry], context: &Context<'_, P>) -> Passed {
    let mut workbench = workbench_of(queue);
    workbench.populate_layers(context);
    let op = workbench.optimization_passes(context);
    passed(&workbench, context, op)
}

/// The list and the clips' pass alone: what a clipped draw needs where the first pass already kept the tile.
pub(crate) fn clips<P: LayerProps>(queue: &[CoverCarry], context: &Context<'_, P>) -> Passed {
    let mut workbench = workbench_of(queue);
    workbench.populate_layers(context);
    let LayerWorkbench { state, passes_shared_state } = &mut workbench;
    let op = passes::skip_trivial_clips_pass(state, passes_shared_state, context);
    passed(&workbench, context, op)
}

/// What a layer of the tile hands on, by `cover_carry`.
pub(crate) fn carry<P: LayerProps>(queue: &[CoverCarry], context: &Context<'_, P>, id: u32) -> Option<CoverCarry> {
    let mut workbench = workbench_of(queue);
    workbench.populate_layers(context);
    workbench.cover_carry(context, id)
}

pub(crate) fn queue(workbench: &LayerWorkbench) -> &[CoverCarry] {
    &workbench.state.queue
}

fn workbench_of(queue: &[CoverCarry]) -> LayerWorkbench {
    let mut workbench = LayerWorkbench::new();
    workbench.init(queue.iter().copied());
    workbench
}

fn passed<P: LayerProps>(
    workbench: &LayerWorkbench,
    context: &Context<'_, P>,
    op: ControlFlow<OptimizerTileWriteOp>,
) -> Passed {
    let LayerWorkbench { state, passes_shared_state } = workbench;
    let listed = |cell: &MaskedCell<u32>| Listed {
        id: cell.val,
        cover: state.cover(cell.val).copied(),
        has_segments: state.segment_ranges.contains_key(&cell.val),
        changed: !context.props.is_unchanged(cell.val),
        mask: cell.mask.get(),
        skips_clipping: passes_shared_state.skip_clipping.contains(&cell.val),
    };
    Passed { entries: state.ids.vals.iter().map(listed).collect(), skipped: state.ids.skipped.get(), op }
}
