//! Tiles from frame to frame: the histories of docs/DIFFERENCES.md, as the Rust's caller has them and by the rule; what
//! the rule keeps and what it lets go; and the loop of the crate's front page over a small display.

use tile_rows::{
    CachedTile, Color, Decision, Fields, Fill, Frame, Func, Layer, LayerTable, PixelSegment, Plane, Refusal, Row,
    Settled, Style, TileHistory,
};

const fn color(r: f32, g: f32, b: f32, a: f32) -> Color {
    Color { r, g, b, a }
}

const RED: Color = color(1.0, 0.0, 0.0, 1.0);
const GREEN: Color = color(0.0, 1.0, 0.0, 0.5);
const BLUE: Color = color(0.0, 0.0, 1.0, 1.0);
const BLACK: Color = color(0.0, 0.0, 0.0, 1.0);

fn draw(id: u32, color: Color) -> Layer {
    Layer::draw(id, Style::solid(color))
}

fn clipped(id: u32, color: Color) -> Layer {
    Layer::draw(id, Style { is_clipped: true, ..Style::solid(color) })
}

fn unchanged(layer: Layer) -> Layer {
    Layer { is_unchanged: true, ..layer }
}

fn edge(layer_id: u32, tile_x: i16, local_x: u8, cover: i8) -> Vec<PixelSegment> {
    let segment = |local_y| {
        let fields = Fields { layer_id, tile_x, tile_y: 0, local_x, local_y, double_area_multiplier: 32, cover };
        PixelSegment::new(fields).unwrap()
    };
    (0..16).map(segment).collect()
}

/// Each layer from the left of tile 0 on.
fn full(layers: &[Layer]) -> Vec<PixelSegment> {
    layers.iter().flat_map(|layer| edge(layer.id, -1, 0, 16)).collect()
}

/// What is settled of a solid tile here: some bytes of its bottom colour and of the topmost of its two layers.
fn bytes(row: &Row<'_>, bottom: Color) -> [u8; 4] {
    let top = row.listed().rfind(|listed| listed.is_shown()).map_or(0, |listed| listed.id);
    [(bottom.r * 255.0) as u8, (bottom.g * 255.0) as u8, (bottom.b * 255.0) as u8, top as u8]
}

/// One tile, worked in a frame with a cached tile alone, as the Rust's caller does.
fn plain(cached: &mut CachedTile, layers: &[Layer], previous_clear: Option<Color>) -> &'static str {
    let (segments, table) = (full(layers), LayerTable::new(layers));
    let mut row = Row::open(&segments, &table, 0, 0..1).unwrap();
    let worked = row.work(0, &Frame { clear: BLACK, previous_clear }, Some(cached)).unwrap();
    if let Decision::Solid { bottom, .. } = worked.decision {
        row.settle(Some(cached), bytes(&row, bottom)).unwrap();
    }
    worked.decision.word()
}

/// The same by its history, which must list as many layers.
fn kept(history: &mut TileHistory, layers: &[Layer], frame: u64) -> &'static str {
    kept_on(history, layers, frame, BLACK)
}

fn kept_on(history: &mut TileHistory, layers: &[Layer], frame: u64, clear: Color) -> &'static str {
    let (segments, table) = (full(layers), LayerTable::new(layers));
    let mut row = Row::open(&segments, &table, 0, 0..1).unwrap();
    let worked = history.work(&mut row, 0, frame, clear).unwrap();
    assert_eq!((worked.listed, row.listed().len(), row.next_tile()), (layers.len(), layers.len(), 1));
    if let Decision::Solid { bottom, .. } = worked.decision {
        history.settle(bytes(&row, bottom)).unwrap();
    }
    worked.decision.word()
}

/// Both, over frames that the Rust keeps from the second on.
fn kept_wrongly(frames: &[Vec<Layer>]) {
    let (mut cached, mut history) = (CachedTile::default(), TileHistory::new());
    for (frame, layers) in (0..).zip(frames) {
        let word = plain(&mut cached, layers, (frame > 0).then_some(BLACK));
        assert_eq!(word, if frame == 0 { "solid" } else { "none" });
        assert_eq!(kept(&mut history, layers, frame), "solid", "it is drawn afresh");
    }
}

#[test]
fn a_an_exchange() {
    kept_wrongly(&[vec![draw(1, RED), draw(2, GREEN)], vec![draw(0, BLUE), unchanged(draw(1, RED))]]);
}

#[test]
fn c_a_hidden_change() {
    kept_wrongly(&[vec![draw(1, RED), draw(2, GREEN)], vec![unchanged(draw(1, RED)), clipped(2, GREEN)]]);
}

#[test]
fn d_a_clip_that_became_a_draw() {
    kept_wrongly(&[
        vec![Layer::clip(0, 9), draw(1, RED), clipped(2, GREEN)],
        vec![draw(0, BLUE), unchanged(draw(1, RED)), unchanged(clipped(2, GREEN))],
    ]);
}

#[test]
fn e_a_clip_that_left() {
    kept_wrongly(&[
        vec![draw(1, RED), Layer::clip(2, 9), clipped(3, GREEN)],
        vec![draw(0, BLUE), unchanged(draw(1, RED)), unchanged(clipped(3, GREEN))],
    ]);
}

#[test]
fn nothing_changed_is_kept() {
    let mut history = TileHistory::new();
    let layers = [draw(1, RED), draw(2, GREEN)];
    assert_eq!(kept(&mut history, &layers, 7), "solid");
    assert_eq!(history.cached().layer_count(), Some(2));
    let same = layers.map(unchanged);
    assert_eq!([8, 9].map(|frame| kept(&mut history, &same, frame)), ["none"; 2]);
    // A layer that comes in above counts as changed; the others stay.
    assert_eq!(kept(&mut history, &[same[0], same[1], draw(3, BLUE)], 10), "solid");
    assert_eq!(kept(&mut history, &[same[0], same[1], unchanged(draw(3, BLUE))], 11), "none");
    history.forget();
    assert_eq!(kept(&mut history, &same, 12), "solid");
}

/// F: a frame in which the tile is not worked, by a crop or a refusal.
#[test]
fn f_a_frame_without_the_tile() {
    let mut history = TileHistory::new();
    assert_eq!(kept(&mut history, &[draw(1, RED)], 0), "solid");
    // In frame 1 the layer turned blue, and the tile was left out.
    let blue = [unchanged(draw(1, BLUE))];
    assert_eq!(kept(&mut history, &blue, 2), "solid");
    assert_eq!(kept(&mut history, &blue, 3), "none");
    // In frame 4 its work is turned down: the table lacks a listed layer.
    let before = history.cached();
    let (segments, table) = (full(&[draw(1, RED), draw(2, GREEN)]), LayerTable::new(&[draw(1, RED)]));
    let mut row = Row::open(&segments, &table, 0, 0..1).unwrap();
    assert_eq!(history.work(&mut row, 0, 4, BLACK), Err(Refusal::Missing));
    assert_eq!((history.cached(), row.next_tile(), row.listed().len()), (before, 0, 0));
    assert_eq!(kept(&mut history, &[unchanged(draw(1, RED))], 5), "solid");
}

/// G: layer 3 ends in tile 0, and a row that is opened at tile 1 lists it there with a carry of zero.
#[test]
fn g_another_first_tile() {
    let ended = [edge(3, -1, 0, 16), edge(3, 0, 8, -16)].concat();
    let work = |history: &mut TileHistory, layers: &[Layer], from: i32, frame: u64| {
        let drawn: Vec<Layer> = layers.iter().copied().filter(|layer| layer.id != 3).collect();
        let mut segments = [full(&drawn), ended.clone()].concat();
        segments.sort_by(PixelSegment::compare);
        let table = LayerTable::new(layers);
        let mut row = Row::open(&segments, &table, 0, from..2).unwrap();
        if from == 0 {
            row.work(0, &Frame { clear: BLACK, previous_clear: None }, None).unwrap();
        }
        let decision = history.work(&mut row, 1, frame, BLACK).unwrap().decision;
        if let Decision::Solid { bottom, .. } = decision {
            history.settle(bytes(&row, bottom)).unwrap();
        }
        decision.word()
    };
    let mut history = TileHistory::new();
    assert_eq!(work(&mut history, &[draw(1, RED), draw(2, GREEN), draw(3, BLUE)], 0, 0), "solid");
    let left = [unchanged(draw(1, RED)), unchanged(draw(3, BLUE))];
    assert_eq!(work(&mut history, &left, 1, 1), "paint", "with its zeros, layer 3 is no full layer");
    assert_eq!(work(&mut history, &left, 1, 2), "none");
}

/// What is proved is about rows that begin at one tile: another first tile draws afresh, even where nothing changed.
#[test]
fn another_first_tile_draws_afresh() {
    let layers = [unchanged(draw(1, RED))];
    let (segments, table) = (full(&layers), LayerTable::new(&layers));
    let mut history = TileHistory::new();
    let words = [(0, 0), (0, 1), (1, 2), (1, 3)].map(|(from, frame)| {
        let mut row = Row::open(&segments, &table, 0, from..2).unwrap();
        if from == 0 {
            row.work(0, &Frame { clear: BLACK, previous_clear: None }, None).unwrap();
        }
        history.work(&mut row, 1, frame, BLACK).unwrap().decision.word()
    });
    assert_eq!(words, ["solid", "none", "solid", "none"]);
}

/// H: a layer that comes back after a frame's absence is changed since the frame before.
#[test]
fn h_a_layer_that_comes_back() {
    let (red, green) = (draw(1, RED), draw(2, GREEN));
    let mut history = TileHistory::new();
    let frames = [vec![red, green], vec![unchanged(red)], vec![unchanged(red), green]];
    let words: Vec<_> = (0..).zip(&frames).map(|(frame, layers)| kept(&mut history, layers, frame)).collect();
    assert_eq!(words, ["solid"; 3]);
}

/// The bytes are the same, so a tile that is drawn afresh need not be written.
#[test]
fn keep_is_said_where_the_count_was_dropped() {
    let (mut history, hidden) = (TileHistory::new(), [draw(0, BLUE), draw(1, RED)]);
    let (segments, table) = (full(&hidden), LayerTable::new(&hidden));
    let mut row = Row::open(&segments, &table, 0, 0..1).unwrap();
    assert_eq!(history.work(&mut row, 0, 0, BLACK).unwrap().decision, Decision::Solid { bottom: RED, before: 1 });
    assert_eq!(history.settle([255, 0, 0, 255]), Ok(Settled::Write));
    let left = [unchanged(draw(1, RED))];
    let (segments, table) = (full(&left), LayerTable::new(&left));
    let mut row = Row::open(&segments, &table, 0, 0..1).unwrap();
    assert_eq!(history.work(&mut row, 0, 1, BLACK).unwrap().decision.word(), "solid");
    assert_eq!(history.settle([255, 0, 0, 255]), Ok(Settled::Keep));
}

/// Hidden layers may leave and come: the shown ones are alike.
#[test]
fn a_hidden_exchange_is_kept() {
    let mut history = TileHistory::new();
    assert_eq!(kept(&mut history, &[draw(0, BLUE), draw(2, RED)], 0), "solid");
    assert_eq!(kept(&mut history, &[draw(1, GREEN), unchanged(draw(2, RED))], 1), "none");
    assert_eq!(kept(&mut history, &[draw(0, BLUE), draw(1, GREEN), unchanged(draw(2, RED))], 2), "none");
}

/// A clear colour of other bits, even one that is equal, and even under an opaque layer: the tile is drawn afresh.
#[test]
fn another_clear_color_draws_afresh() {
    let nan = color(f32::NAN, 0.0, 0.0, 1.0);
    let zeros = [color(0.0, 0.0, 0.0, 1.0), color(-0.0, 0.0, 0.0, 1.0)];
    for (layers, of_nan) in [([draw(1, RED), draw(2, GREEN)], "none"), ([draw(1, GREEN), draw(2, GREEN)], "solid")] {
        let (same, mut history) = (layers.map(unchanged), TileHistory::new());
        let mut on = |clear, frame| kept_on(&mut history, &same, frame, clear);
        assert_eq!([on(BLUE, 0), on(BLUE, 1)], ["solid", "none"]);
        assert_eq!([on(zeros[0], 2), on(zeros[0], 3)], ["solid", "none"]);
        assert_eq!([on(zeros[1], 4), on(zeros[1], 5)], ["solid", "none"]);
        // A NaN is the same by its bits, but not by ==, which the first pass asks.
        assert_eq!([on(nan, 6), on(nan, 7)], ["solid", of_nan]);
        assert_eq!(on(BLUE, 8), "solid");
    }
}

/// Two frames of one tile, in the first of which clip 1 has the right half of it, and all else is full. By the Rust, which
/// keeps the tile, and by the rule.
fn painted_then(layers: [&[Layer]; 2], by_rule: &str) {
    let halved = layers[0].iter().flat_map(|layer| edge(layer.id, if layer.id == 1 { 0 } else { -1 }, 8, 16));
    let mut halved: Vec<PixelSegment> = halved.collect();
    halved.sort_by(PixelSegment::compare);
    let (tables, segments) = (layers.map(LayerTable::new), [halved, full(layers[1])]);
    let (mut cached, mut history) = (CachedTile::default(), TileHistory::new());
    let words = [0, 1].map(|at| {
        let row = Row::open(&segments[at], &tables[at], 0, 0..1).unwrap();
        let frame = Frame { clear: BLACK, previous_clear: (at > 0).then_some(BLACK) };
        let kept = row.clone().work(0, &frame, Some(&mut cached)).unwrap();
        let ruled = history.work(&mut row.clone(), 0, at as u64, BLACK).unwrap();
        [kept.decision.word(), ruled.decision.word()]
    });
    assert_eq!(words, [["paint", "paint"], ["none", by_rule]]);
}

/// Clip 2 is full, and clip 1 is not: the tile is painted. Then two clipped draws without a clip take the place of the
/// clips. The same is to be seen, but it is drawn in another way.
#[test]
fn paint_is_not_kept_for_solid() {
    let clips = [draw(0, RED), Layer::clip(1, 1), Layer::clip(2, 0)];
    painted_then([&clips, &[unchanged(draw(0, RED)), clipped(1, GREEN), clipped(2, GREEN)]], "solid");
}

/// Layer 3 lacks clip 1, which layer 2 covers; then a draw has the place of clip 1, and clip 0, which is full, frees
/// layer 3. The shown layers are the same by their ids.
#[test]
fn whether_a_layer_needs_a_clip_is_remembered() {
    let lacks = [Layer::clip(0, 3), Layer::clip(1, 3), draw(2, RED), clipped(3, GREEN)];
    let freed = [unchanged(lacks[0]), draw(1, BLUE), unchanged(lacks[2]), unchanged(lacks[3])];
    painted_then([&lacks, &freed], "solid");
}

// ---- the loop of the front page

/// The tile's display, and its history.
struct Display {
    history: TileHistory,
    pixels: [[u8; 4]; 256],
}

fn over(below: [f32; 4], color: Color, coverage: f32) -> [f32; 4] {
    let alpha = color.a * coverage;
    let above = color.numbers();
    [0, 1, 2, 3].map(|at| if at == 3 { alpha } else { above[at] * alpha } + below[at] * (1.0 - alpha))
}

fn display_bytes(color: [f32; 4]) -> [u8; 4] {
    color.map(|number| (number * 255.0).round() as u8)
}

impl Display {
    /// A frame of one tile, on black. What is decided, and what settling answered.
    fn show(
        &mut self,
        segments: &[PixelSegment],
        layers: &[Layer],
        frame: u64,
    ) -> Result<(Decision, Option<Settled>), Refusal> {
        let color_of = |id| match layers.iter().find(|layer| layer.id == id).map(|layer| layer.func) {
            Some(Func::Draw(Style { fill: Fill::Solid(color), .. })) => color,
            _ => panic!("only solid draws are shown here"),
        };
        let table = LayerTable::new(layers);
        let mut row = Row::open(segments, &table, 0, 0..1)?;
        let worked = self.history.work(&mut row, 0, frame, BLACK)?;
        match worked.decision {
            Decision::None => {}
            Decision::Solid { bottom, before } => {
                let mixed = row.listed().filter(|listed| listed.is_shown()).skip(before);
                let color = mixed.fold(bottom.numbers(), |below, listed| over(below, color_of(listed.id), 1.0));
                let settled = self.history.settle(display_bytes(color))?;
                if settled == Settled::Write {
                    self.pixels = [display_bytes(color); 256];
                }
                return Ok((worked.decision, Some(settled)));
            }
            Decision::Paint => {
                let mut colors = [BLACK.numbers(); 256];
                row.paint_shown(&mut Plane::new(), |listed, plane, _mark| {
                    for (color, coverage) in colors.iter_mut().zip(plane.rows().flatten()) {
                        *color = over(*color, color_of(listed.id), coverage);
                    }
                })?;
                self.pixels = colors.map(display_bytes);
            }
        }
        Ok((worked.decision, None))
    }
}

/// Half of the tile is red, and painted; then the row is empty. A tile that was painted is not filled with anything, so
/// that black is written.
#[test]
fn a_painted_tile_is_not_settled() -> Result<(), Refusal> {
    let (red, black) = ([255, 0, 0, 255], [0, 0, 0, 255]);
    let mut display = Display { history: TileHistory::new(), pixels: [[7; 4]; 256] };
    let half = edge(1, 0, 8, 16);
    assert_eq!(display.show(&half, &[draw(1, RED)], 0)?, (Decision::Paint, None));
    assert!((0..256).all(|at| display.pixels[at] == if at % 16 < 8 { black } else { red }));
    assert_eq!(display.show(&half, &[unchanged(draw(1, RED))], 1)?, (Decision::None, None));
    let (decision, settled) = display.show(&[], &[], 2)?;
    assert_eq!((decision.word(), settled), ("solid", Some(Settled::Write)));
    assert_eq!(display.pixels, [black; 256]);
    let (decision, settled) = display.show(&[], &[draw(1, RED)], 3)?;
    assert_eq!((decision.word(), settled), ("none", None), "nothing is listed, as before");
    Ok(())
}

/// Who settles a painted tile all the same is told to write, and the tile is drawn afresh and written in the next frame.
#[test]
fn settling_a_painted_tile_keeps_nothing() -> Result<(), Refusal> {
    let mut display = Display { history: TileHistory::new(), pixels: [[7; 4]; 256] };
    let half = edge(1, 0, 8, 16);
    assert_eq!(display.show(&half, &[draw(1, RED)], 0)?, (Decision::Paint, None));
    assert_eq!(display.history.cached(), CachedTile([2, 1, 0, 0, 0, 0, 0, 0]));
    assert_eq!(display.history.settle([0, 0, 0, 255]), Ok(Settled::Write));
    assert_eq!(display.history.cached(), CachedTile::default());
    let (decision, settled) = display.show(&[], &[], 1)?;
    assert_eq!((decision.word(), settled), ("solid", Some(Settled::Write)));
    // So with a kept tile, which no bytes fill either.
    assert_eq!(display.show(&[], &[], 2)?.0, Decision::None);
    assert_eq!(display.history.settle([0, 0, 0, 255]), Ok(Settled::Write));
    assert_eq!(display.show(&[], &[], 3)?.1, Some(Settled::Write));
    Ok(())
}

// ---- random histories

/// Numbers of a linear congruence.
struct Random(u64);

impl Random {
    fn below(&mut self, n: u64) -> u64 {
        self.0 = self.0.wrapping_mul(6_364_136_223_846_793_005).wrapping_add(1_442_695_040_888_963_407);
        (self.0 >> 33) % n
    }
}

const TILES: usize = 3;

/// A layer of a frame: its record, changed, and its segments.
type Sent = (Layer, Vec<PixelSegment>);

fn any_sent(random: &mut Random, id: u32) -> Sent {
    let color = [RED, GREEN, BLUE][random.below(3) as usize];
    let layer = match random.below(4) {
        0 => Layer::clip(id, random.below(4) as u32),
        1 => clipped(id, color),
        _ => draw(id, color),
    };
    let start = random.below(TILES as u64 + 1) as i16 - 1;
    let mut segments = edge(id, start, if start < 0 { 0 } else { random.below(16) as u8 }, 16);
    if random.below(2) == 0 {
        let end = start.max(0) + random.below(TILES as u64) as i16;
        segments.extend(edge(id, end, 15, -16));
    }
    (layer, segments)
}

/// What is drawn into a tile, call by call: of a solid tile the bottom colour and what is mixed above it, of a painted one
/// the clear colour and each shown layer with its coverages and mark.
type Drawing = (u32, [u32; 4], Vec<(u32, String, Vec<u32>, u32)>);

fn drawing(row: &mut Row<'_>, decision: Decision, clear: Color) -> Option<Drawing> {
    let bits = |color: Color| color.numbers().map(f32::to_bits);
    let table = row.table();
    let style = |id: u32| format!("{:?}", table.get(id).expect("a shown layer has a record").func);
    match decision {
        Decision::None => None,
        Decision::Solid { bottom, before } => {
            let mixed = row.listed().filter(|listed| listed.is_shown()).skip(before);
            Some((1, bits(bottom), mixed.map(|listed| (listed.id, style(listed.id), Vec::new(), 0)).collect()))
        }
        Decision::Paint => {
            let mut calls = Vec::new();
            row.paint_shown(&mut Plane::new(), |listed, plane, mark| {
                let coverages = plane.rows().flatten().map(f32::to_bits).collect();
                calls.push((listed.id, style(listed.id), coverages, mark.0));
            })
            .unwrap();
            Some((2, bits(clear), calls))
        }
    }
}

/// Four bytes of a drawing, as the display's would be: equal for equal drawings.
fn bytes_of(drawing: &Drawing) -> [u8; 4] {
    let text = format!("{drawing:?}");
    text.bytes().fold(0x811c_9dc5u32, |hash, byte| (hash ^ u32::from(byte)).wrapping_mul(0x0100_0193)).to_le_bytes()
}

/// Flags since the frame before, clear colours that vary, crops, and rows whose first tile varies: a tile shows what it
/// would show if it were drawn afresh. With cached tiles alone many a tile shows something else.
#[test]
fn random_histories_show_what_is_drawn_afresh() {
    let clears = [BLACK, BLUE, color(-0.0, 0.0, 0.0, 1.0), color(0.0, 0.0, 0.0, 0.5)];
    let (mut kept, mut settled_kept, mut wrong, mut cropped) = (0, 0, 0, 0);
    for seed in 0..2_000 {
        let mut random = Random(seed);
        let mut sent: Vec<Option<Sent>> = vec![None; 6];
        let mut clear = BLACK;
        let mut histories = vec![TileHistory::new(); TILES];
        let mut shown: Vec<Option<Drawing>> = vec![None; TILES];
        let (mut cached, mut plainly) = ([CachedTile::default(); TILES], shown.clone());
        for frame in 0..8 {
            let before = sent.clone();
            let previous_clear = (frame > 0).then_some(clear);
            for (id, one) in (0..).zip(&mut sent) {
                match random.below(8) {
                    0 => *one = None,
                    1 => *one = Some(any_sent(&mut random, id)),
                    _ if frame == 0 => *one = (random.below(2) == 0).then(|| any_sent(&mut random, id)),
                    _ => {}
                }
            }
            if random.below(4) == 0 {
                clear = clears[random.below(4) as usize];
            }
            let is_same = |at: usize| before[at] == sent[at];
            let standing = sent.iter().enumerate().filter_map(|(at, one)| one.as_ref().map(|one| (at, one)));
            let layers: Vec<Layer> = standing.clone().map(|(at, (layer, _))| layer.unchanged(is_same(at))).collect();
            let mut segments: Vec<PixelSegment> = standing.flat_map(|(_, (_, segments))| segments.clone()).collect();
            segments.sort_by(PixelSegment::compare);
            let table = LayerTable::new(&layers);
            // Some frames leave tiles out at the left, at the right or everywhere.
            let from = [0, 0, 0, 1, 2][random.below(5) as usize];
            let to = [3, 3, 3, 2][random.below(4) as usize].max(from);
            cropped += u32::from((from, to) != (0, 3));
            let mut row = Row::open(&segments, &table, 0, from..to).unwrap();
            let mut plain = row.clone();
            for tile in from..to {
                let at = tile as usize;
                let mut afresh = row.clone();
                let alone = Frame { clear, previous_clear: None };
                let decision = afresh.work(tile, &alone, None).unwrap().decision;
                let due = drawing(&mut afresh, decision, clear).expect("without a cached tile it is drawn");

                let decision = histories[at].work(&mut row, tile, frame, clear).unwrap().decision;
                let drawn = drawing(&mut row, decision, clear);
                kept += u32::from(drawn.is_none());
                if let Some(drawn) = drawn {
                    let is_kept = drawn.0 == 1 && histories[at].settle(bytes_of(&drawn)).unwrap() == Settled::Keep;
                    settled_kept += u32::from(is_kept);
                    if !is_kept {
                        shown[at] = Some(drawn);
                    }
                }
                assert_eq!(shown[at].as_ref(), Some(&due), "seed {seed}, frame {frame}, tile {tile}");

                let frames = Frame { clear, previous_clear };
                let decision = plain.work(tile, &frames, Some(&mut cached[at])).unwrap().decision;
                if let Some(drawn) = drawing(&mut plain, decision, clear) {
                    if drawn.0 != 1 || plain.settle(Some(&mut cached[at]), bytes_of(&drawn)).unwrap() == Settled::Write
                    {
                        plainly[at] = Some(drawn);
                    }
                }
                wrong += u32::from(plainly[at].as_ref() != Some(&due));
            }
        }
    }
    assert!(kept > 500 && settled_kept > 50 && wrong > 100 && cropped > 500, "{kept} {settled_kept} {wrong} {cropped}");
}
