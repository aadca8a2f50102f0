//! A row as `paint_tile_row` goes through it, tile by tile, with all that a tile's work leaves.

use super::super::*;
use super::{bytes_of, cached_of, cover_of, recorder::Recorder, tile_of};
use crate::{
    cpu::{buffer::layout::LinearLayout, RGBA},
    plain::{color_of, Cached, Carry, Decision, Entry, Painted, Record, Rgba, Worked},
    table::Table,
};

use layer_workbench::reach::{clips, passes, queue, Listed, Passed};

pub(super) type Segment = PixelSegment<{ consts::cpu::TILE_WIDTH }, { consts::cpu::TILE_HEIGHT }>;

/// What a tile's work is given besides the row and the table.
#[derive(Clone, Copy, Debug)]
pub struct Frame {
    pub clear: Rgba,
    pub previous_clear: Option<Rgba>,
    pub channels: [Channel; 4],
}

pub struct Row<'t> {
    table: &'t Table,
    tile_y: usize,
    segments: Vec<Segment>,
    /// Where the segments begin that no tile has taken.
    start: usize,
    workbench: LayerWorkbench,
    recorder: Recorder,
    /// Paints by single calls, from the clip that the tile's earlier ones left.
    single: Recorder,
    last: Last,
}

/// What the tile just worked took in.
#[derive(Default)]
struct Last {
    tile: usize,
    segments: Vec<Segment>,
    queue: Vec<CoverCarry>,
    skip_clipping: Vec<u32>,
}

impl<'t> Row<'t> {
    /// The opening of `paint_tile_row`, with no tile after it.
    pub fn open(tile_y: usize, from: usize, to: usize, words: &[u64], table: &'t Table) -> Self {
        let segments = segments_of(words);
        let mut workbench = LayerWorkbench::new();
        Painter::new().paint_tile_row::<Table, LinearLayout>(
            &mut workbench,
            tile_y,
            &segments,
            table,
            RGBA,
            Color::default(),
            None,
            None,
            (&mut [] as &mut [Slice<'_, u8>]).chunks_exact_mut(1),
            &Some(Rect { hor: from..to, vert: tile_y..tile_y + 1 }),
            None,
        );
        let start = segments.partition_point(|segment| segment.tile_x() < from as i16);
        let (recorder, single) = (Recorder::new(), Recorder::new());
        Self { table, tile_y, segments, start, workbench, recorder, single, last: Last::default() }
    }

    pub fn queue(&self) -> Vec<Carry> {
        queue(&self.workbench).iter().map(carry_of).collect()
    }

    /// Another queue in place of the one that the last tile handed on.
    pub fn take_queue(&mut self, queue: &[Carry]) {
        self.workbench.init(queue.iter().map(|carry| CoverCarry { cover: cover_of(carry.cover), layer_id: carry.id }));
    }

    /// `drive_tile_painting` for the next tile. The list, the masks and the decision are those of the same functions,
    /// called once more on a copy of the queue and of the cached tile.
    pub fn work(&mut self, tile: usize, frame: &Frame, cached: Option<Cached>) -> Worked {
        self.take_in(tile);
        let Last { segments, queue, .. } = &self.last;
        let probe = cached.map(tile_of);
        let context = context(self.table, tile, self.tile_y, segments, frame, probe.as_ref());
        let passed = passes(queue, &context);
        let decision = self.decision(&passed, frame, cached);
        let skip_clipping = skip_clipping(&passed, &clips(queue, &context));

        let kept = cached.map(tile_of);
        let context = Context { cached_tile: kept.as_ref(), ..context };
        self.recorder.painter.clip = None;
        self.recorder.painted.clear();
        let op = self.workbench.drive_tile_painting(&mut self.recorder, &context);
        self.single.painter.clip = None;

        let kept = kept.as_ref().map(cached_of);
        let probe = probe.as_ref().map(cached_of);
        let worked = Worked {
            list: passed.entries.iter().map(entry_of).collect(),
            skipped: passed.skipped,
            decision,
            settled: settled(&decision, &op, kept),
            cached: kept.map(|kept| (if matches!(decision, Decision::Paint) { kept } else { probe.unwrap() }, kept)),
            queue: self.queue(),
            painted: self.recorder.painted.clone(),
        };
        agree(&worked, &op);
        self.last.skip_clipping = skip_clipping;
        worked
    }

    /// One layer of the tile just worked, painted as `drive_tile_painting` paints it.
    pub fn paint(&mut self, id: u32) -> Painted {
        let props = self.table.get(id);
        self.single.clear_cells();
        for &segment in self.last.segments.iter().filter(|segment| segment.layer_id() == id) {
            self.single.acc_segment(segment);
        }
        for carry in self.last.queue.iter().filter(|carry| carry.layer_id == id) {
            self.single.acc_cover(carry.cover);
        }
        let is_clipped = matches!(props.func, Func::Draw(Style { is_clipped: true, .. }));
        let apply_clip = is_clipped && !self.last.skip_clipping.contains(&id);
        self.single.paint_layer(self.last.tile, self.tile_y, id, &props, apply_clip);
        self.single.painted.pop().unwrap()
    }

    /// The display bytes of a tile that was painted, column by column.
    pub fn pixels(&mut self, channels: [Channel; 4]) -> Vec<[u8; 4]> {
        let painter = &mut self.recorder.painter;
        painter.compute_srgb(channels);
        let bytes: &[[u8; 4]] = unsafe { std::slice::from_raw_parts(painter.srgb.as_ptr().cast(), 256) };
        bytes.to_vec()
    }

    /// The segments of a tile, as `paint_tile_row` finds them, and the queue.
    fn take_in(&mut self, tile: usize) {
        let left = &self.segments[self.start..];
        let found = crate::cpu::search_last_by_key(left, tile as i16, |segment| segment.tile_x());
        let count = found.map_or(0, |last| last + 1);
        let segments = left[..count].to_vec();
        self.start += count;
        self.last = Last { tile, segments, queue: queue(&self.workbench).to_vec(), skip_clipping: Vec::new() };
    }

    /// Which colour lies at the bottom of a solid tile shows where the clear colour is no number: then so is what is
    /// mixed above it.
    fn decision(&self, passed: &Passed, frame: &Frame, cached: Option<Cached>) -> Decision {
        let mixed = match passed.op {
            ControlFlow::Continue(()) => return Decision::Paint,
            ControlFlow::Break(OptimizerTileWriteOp::None) => return Decision::None,
            ControlFlow::Break(OptimizerTileWriteOp::Solid(color)) => color.to_array(),
        };
        let table = self.table.recolored();
        let telltale = Frame { clear: [f32::NAN, 0.5, 0.5, 0.5], previous_clear: None, ..*frame };
        let probe = cached.map(tile_of);
        let context = context(&table, self.last.tile, self.tile_y, &self.last.segments, &telltale, probe.as_ref());
        let ControlFlow::Break(OptimizerTileWriteOp::Solid(told)) = passes(&self.last.queue, &context).op else {
            panic!("another colour, another decision");
        };
        if told.r.is_nan() {
            return Decision::Solid { bottom: frame.clear, before: 0, mixed };
        }
        let shown = passed.entries[passed.skipped..].iter().find(|entry| entry.mask);
        let bottom = self.table.record(shown.expect("an opaque layer is shown").id).unwrap().color;
        Decision::Solid { bottom, before: 1, mixed }
    }
}

/// A whole row painted by `paint_tile_row` into a buffer of 16 lines, `tiles` wide, with what it leaves of the cached
/// tiles.
#[allow(clippy::too_many_arguments)]
pub fn paint_row(
    tile_y: usize,
    tiles: usize,
    crop: Option<(usize, usize)>,
    words: &[u64],
    table: &Table,
    frame: &Frame,
    cached: Option<&[Cached]>,
    buffer: &mut [u8],
) -> Option<Vec<Cached>> {
    let kept: Option<Vec<CachedTile>> = cached.map(|cached| cached.iter().copied().map(tile_of).collect());
    let mut layout = LinearLayout::new(tiles * 16, tiles * 64, 16);
    Painter::new().paint_tile_row::<Table, LinearLayout>(
        &mut LayerWorkbench::new(),
        tile_y,
        &segments_of(words),
        table,
        frame.channels,
        color_of(frame.clear),
        frame.previous_clear.map(color_of),
        kept.as_deref(),
        layout.slices(buffer).chunks_exact_mut(16),
        &crop.map(|(from, to)| Rect { hor: from..to, vert: tile_y..tile_y + 1 }),
        None,
    );
    kept.map(|kept| kept.iter().map(cached_of).collect())
}

/// What one layer hands on, from its segments of a tile and its incoming cover; nothing where that is empty.
pub fn carry(words: &[u64], incoming: Option<[i8; 16]>, record: &Record) -> Option<[i8; 16]> {
    let table = Table::new(&[*record]);
    let frame = Frame { clear: [0.0; 4], previous_clear: None, channels: RGBA };
    let queue: Vec<CoverCarry> =
        incoming.iter().map(|&bytes| CoverCarry { cover: cover_of(bytes), layer_id: record.id }).collect();
    let segments = segments_of(words);
    let carry = layer_workbench::reach::carry(&queue, &context(&table, 0, 0, &segments, &frame, None), record.id);
    carry.map(|carry| bytes_of(carry.cover))
}

pub(super) fn segments_of(words: &[u64]) -> Vec<Segment> {
    words.iter().map(|&word| crate::pixel_segment::of_word(word)).collect()
}

pub(super) fn context<'c>(
    table: &'c Table,
    tile_x: usize,
    tile_y: usize,
    segments: &'c [Segment],
    frame: &Frame,
    cached_tile: Option<&'c CachedTile>,
) -> Context<'c, Table> {
    Context {
        tile_x,
        tile_y,
        segments,
        props: table,
        cached_clear_color: frame.previous_clear.map(color_of),
        channels: frame.channels,
        cached_tile,
        clear_color: color_of(frame.clear),
    }
}

pub(super) fn carry_of(carry: &CoverCarry) -> Carry {
    Carry { id: carry.layer_id, cover: bytes_of(carry.cover) }
}

fn entry_of(listed: &Listed) -> Entry {
    let cover = listed.cover.map_or([0; 16], bytes_of);
    Entry { id: listed.id, cover, has_segments: listed.has_segments, changed: listed.changed, shown: listed.mask }
}

/// The draws that need no clip. Where the first pass kept the tile, the second did not run and its set is empty: then
/// the set is the one that it would have left.
fn skip_clipping(passed: &Passed, clips: &Passed) -> Vec<u32> {
    let ids = |passed: &Passed| {
        passed.entries.iter().filter(|entry| entry.skips_clipping).map(|entry| entry.id).collect::<Vec<_>>()
    };
    if !matches!(passed.op, ControlFlow::Break(OptimizerTileWriteOp::None)) {
        assert_eq!(ids(passed), ids(clips));
    }
    ids(clips)
}

/// The display bytes of a solid tile, and whether they are written.
fn settled(decision: &Decision, op: &TileWriteOp, kept: Option<Cached>) -> Option<([u8; 4], bool)> {
    match (decision, op) {
        (Decision::Solid { .. }, TileWriteOp::Solid(bytes)) => Some((*bytes, true)),
        (Decision::Solid { .. }, _) => {
            let [_, _, _, _, red, green, blue, alpha] = kept.expect("without a cached tile it is written").0;
            Some(([red, green, blue, alpha], false))
        }
        _ => None,
    }
}

/// What `drive_tile_painting` did is what its parts, called once more, say.
fn agree(worked: &Worked, op: &TileWriteOp) {
    let shown = worked.list.iter().skip(worked.skipped).filter(|entry| entry.shown).map(|entry| entry.id);
    match worked.decision {
        Decision::None => assert_eq!(*op, TileWriteOp::None),
        Decision::Solid { .. } => assert_ne!(*op, TileWriteOp::ColorBuffer),
        Decision::Paint => {
            assert_eq!(*op, TileWriteOp::ColorBuffer);
            assert!(shown.eq(worked.painted.iter().map(|painted| painted.id)));
        }
    }
    if let Some((after_work, settled)) = worked.cached {
        assert!(after_work == settled || matches!(worked.decision, Decision::Solid { .. }));
    }
}
