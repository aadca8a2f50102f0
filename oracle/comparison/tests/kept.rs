//! Tiles kept from frame to frame, in the unchanged Rust: the smallest histories in which one is kept with a wrong
//! picture, by `paint_tile_row` into a buffer that stays; what the crate's `TileHistory` keeps, beside the bytes that the
//! Rust draws afresh; and how often random histories are kept wrongly, with the keep rule and without.

use comparison::{
    any_histories::{any_history, any_pair, TILES},
    kept_drawings::{
        by_the_rust, drawn_afresh, is_none_by_passes, show, worked_afresh, Bytes, Drawing, Kept as Outcome, Shown,
    },
    kept_histories::{clip, column, draw, histories, Layer, Shot, BLACK, BLUE, GREEN, RED},
    kept_rule::{shown_layers, Last},
    random::Random,
};
use reference::{
    cpu::RGBA,
    painter::row::{paint_row, Row},
    plain::{Cached, Decision, Rgba},
    Table,
};

/// A row of `tiles` tiles and what it shows.
struct Buffer {
    tiles: usize,
    bytes: Vec<u8>,
    cached: Option<Vec<Cached>>,
    clear: Option<Rgba>,
}

impl Buffer {
    fn new(tiles: usize, caches: bool) -> Self {
        let cached = caches.then(|| vec![Cached::default(); tiles]);
        Self { tiles, bytes: vec![7; tiles * 1024], cached, clear: None }
    }

    fn paint(&mut self, shot: &Shot) {
        let picture = shot.picture(self.clear.replace(shot.clear));
        let (table, tiles) = (Table::new(&picture.records), self.tiles);
        let (frame, cached) = (&picture.frame, self.cached.as_deref());
        self.cached = paint_row(0, tiles, Some(shot.tiles), &picture.words, &table, frame, cached, &mut self.bytes);
    }

    /// A pixel of a tile in its first row.
    fn pixel(&self, tile: usize, x: usize) -> [u8; 3] {
        let at = tile * 64 + x * 4;
        [self.bytes[at], self.bytes[at + 1], self.bytes[at + 2]]
    }
}

/// What the last tile shows after all frames, and what a fresh painting of the last shows, in its first and last column;
/// and the bytes that it keeps after each frame.
struct Kept {
    shows: [[u8; 3]; 2],
    due: [[u8; 3]; 2],
    bytes: Vec<[u8; 8]>,
}

fn run(history: usize) -> Kept {
    let shots = &histories()[history];
    let tiles = shots[0].tiles.1;
    let mut buffer = Buffer::new(tiles, true);
    let bytes = shots.iter().map(|shot| {
        buffer.paint(shot);
        buffer.cached.as_ref().unwrap()[tiles - 1].0
    });
    let bytes = bytes.collect();
    let mut fresh = Buffer::new(tiles, false);
    let last = shots.last().unwrap();
    fresh.paint(&Shot::new(last.layers.clone(), (0, tiles)));
    let ends = |buffer: &Buffer| [0, 15].map(|x| buffer.pixel(tiles - 1, x));
    Kept { shows: ends(&buffer), due: ends(&fresh), bytes }
}

/// Two frames of one tile: the bytes that are kept stay, and the tile shows the first frame.
fn keeps_wrongly(history: usize, bytes: [u8; 8], shows: [[u8; 3]; 2], due: [[u8; 3]; 2]) {
    let kept = run(history);
    assert_eq!(kept.bytes, [bytes; 2]);
    assert_eq!((kept.shows, kept.due), (shows, due));
}

const MIXED: [[u8; 3]; 2] = [[0xBB, 0xBB, 0]; 2];
const ALL_RED: [[u8; 3]; 2] = [[0xFF, 0, 0]; 2];
const ALL_BLUE: [[u8; 3]; 2] = [[0, 0, 0xFF]; 2];

#[test]
fn a_an_exchange() {
    keeps_wrongly(0, [3, 2, 0, 0, 187, 187, 0, 255], MIXED, ALL_RED);
}

/// Mended here by W-208.
#[test]
fn b_a_widened_clip() {
    keeps_wrongly(1, [2, 2, 0, 0, 0, 0, 0, 0], [[0, 0, 0], [0xFF, 0, 0]], ALL_RED);
}

#[test]
fn c_a_hidden_change() {
    keeps_wrongly(2, [3, 2, 0, 0, 187, 187, 0, 255], MIXED, ALL_RED);
}

#[test]
fn d_a_clip_that_turned_into_a_draw() {
    keeps_wrongly(3, [3, 3, 0, 0, 187, 187, 0, 255], MIXED, ALL_RED);
}

#[test]
fn e_a_clip_that_left() {
    keeps_wrongly(4, [3, 3, 0, 0, 187, 187, 0, 255], MIXED, ALL_RED);
}

#[test]
fn f_a_change_outside_the_crop() {
    let kept = run(5);
    assert_eq!((kept.shows, kept.due), (ALL_RED, ALL_BLUE));
}

#[test]
fn g_another_first_tile() {
    let kept = run(6);
    assert_eq!((kept.shows, kept.due), (MIXED, ALL_RED));
}

#[test]
fn h_a_layer_that_comes_back() {
    let kept = run(7);
    assert_eq!((kept.shows, kept.due), (ALL_RED, MIXED));
}

// ---- two frames of a tile, by a `TileHistory`

/// Two frames of tile 0: whether the passes alone keep it, whether the Rust draws both in the same way, and what the
/// tile's history does. What it keeps shows the bytes of a fresh painting, or `show` panics.
#[derive(Debug, Eq, PartialEq)]
struct Pair {
    is_none: bool,
    is_alike: bool,
    is_kept: bool,
}

fn drawing(shot: &Shot) -> (Drawing, Bytes) {
    let picture = shot.picture(None);
    let worked = worked_afresh(&picture, shot.tiles).remove(0);
    let shown = shown_layers(&worked, &picture.records);
    (Drawing::new(&worked, &picture, &shown), drawn_afresh(&picture, shot.tiles).remove(0))
}

fn pair(shots: &[Shot; 2]) -> Pair {
    let [(last, before), (now, after)] = [drawing(&shots[0]), drawing(&shots[1])];
    let is_alike = last == now;
    assert!(!is_alike || before == after, "the same calls, and other bytes: {shots:?}");
    let mut tile = [Shown::default()];
    assert_eq!(show(0, &shots[0], &mut tile), [Outcome::Drawn]);
    let is_kept = show(1, &shots[1], &mut tile) == [Outcome::None];
    Pair { is_none: is_none_by_passes(shots), is_alike, is_kept }
}

fn frames(before: &[Layer], now: &[Layer]) -> [Shot; 2] {
    [before, now].map(|layers| Shot::new(layers.to_vec(), (0, 1)))
}

/// The first and the last pixel of a tile's first line.
fn ends(bytes: &Bytes) -> [[u8; 3]; 2] {
    [0, 60].map(|at| [bytes[at], bytes[at + 1], bytes[at + 2]])
}

/// Over the right half of tile 0.
fn half(layer: Layer) -> Layer {
    let id = layer.record.id;
    layer.with(column(id, 0, 8, 16))
}

/// The passes keep the tile, which is not drawn in the same way as before; its history doesn't.
fn is_let_go(shots: &[Shot; 2]) {
    assert_eq!(pair(shots), Pair { is_none: true, is_alike: false, is_kept: false });
}

fn is_kept(shots: &[Shot; 2]) {
    assert_eq!(pair(shots), Pair { is_none: true, is_alike: true, is_kept: true });
}

/// The passes draw the tile themselves.
fn is_drawn(shots: &[Shot; 2]) {
    let pair = pair(shots);
    assert_eq!((pair.is_none, pair.is_kept), (false, false));
}

/// P7: clip 2 is painted last, and the painter's clip ends where clip 1 does, so that it is not alive at layer 3, which
/// paints nothing. Without clip 1 layer 3 is cut by clip 2. Nothing keeps the tile from one to the other.
#[test]
fn a_clip_painted_last_and_not_alive() {
    let two = [half(clip(1, 1)), half(clip(2, 5)), draw(3, RED).clipped()];
    let [_, second, red] = two.clone().map(Layer::unchanged);
    let shots = frames(&two, &[second.clone(), red.clone()]);
    let [before, after] = [0, 1].map(|at| drawing(&shots[at]));
    assert!(before.0 != after.0);
    assert_eq!((ends(&before.1), ends(&after.1)), ([[0; 3]; 2], [[0; 3], [255, 0, 0]]));
    is_drawn(&shots);
    is_drawn(&frames(&two, &[draw(0, BLUE), second, red]));
    is_kept(&frames(&two, &two.clone().map(Layer::unchanged)));
}

/// Clip 2 is painted while clip 1 is alive: layer 3 is cut by the coverages of clip 2, the left half. Where clip 1 has left,
/// the same is to be seen by other calls.
#[test]
fn an_overwritten_clip() {
    let left = clip(2, 5).with([column(2, -1, 0, 16), column(2, 0, 8, -16)].concat());
    let two = [half(clip(1, 9)), left, draw(3, RED).clipped()];
    let [_, second, red] = two.clone().map(Layer::unchanged);
    let shots = frames(&two, &[draw(0, [0.0; 4]), second, red]);
    let [before, after] = [0, 1].map(|at| drawing(&shots[at]));
    assert!(before.0 != after.0);
    assert_eq!((ends(&before.1), ends(&after.1)), ([[255, 0, 0], [0; 3]], [[255, 0, 0], [0; 3]]));
    is_drawn(&shots);
    is_kept(&frames(&two, &two.clone().map(Layer::unchanged)));
}

/// Layer 3 lacks its clip, which is passed over as covered. The same below a hidden exchange; and freed by a full clip
/// once the skipped one has left: the ids are those of before.
#[test]
fn a_skipped_clip() {
    let lacks = [half(clip(1, 5)), draw(2, RED), draw(3, GREEN).clipped()];
    is_kept(&frames(&lacks, &lacks.clone().map(Layer::unchanged)));
    is_drawn(&frames(&lacks, &[&lacks.clone().map(Layer::unchanged)[..], &[draw(4, GREEN)]].concat()));
    let before = [clip(0, 3), half(clip(1, 3)), draw(2, RED), draw(3, GREEN).clipped()];
    let [full, _, red, green] = before.clone().map(Layer::unchanged);
    is_let_go(&frames(&before, &[full, draw(1, BLUE), red, green]));
}

/// Clip 1, which is not full, stays shown, since clip 2 takes its place before anything lies past its reach: the tile is
/// painted. Then draws that are masked off have the places of both clips, and the tile is solid.
#[test]
fn from_paint_to_solid() {
    let red = [f32::from_bits(0x3bbd_33cd), 0.0, 0.0, 1.0];
    let clips = [draw(0, red), half(clip(1, 1)), clip(2, 0)];
    let draws = [draw(0, red).unchanged(), draw(1, GREEN).clipped(), draw(2, GREEN).clipped()];
    let mut shots = frames(&clips, &draws);
    is_let_go(&shots);
    // The same by a layer that comes in and is masked off, while whoever was listed is listed still.
    let ended = [draw(0, RED), half(clip(1, 0)), clip(3, 0)];
    let [floor, first, last] = ended.clone().map(Layer::unchanged);
    is_let_go(&frames(&ended, &[floor, first, draw(2, GREEN).clipped(), last]));
    shots.iter_mut().for_each(|shot| shot.clear = [0.0, 0.0, 0.0, 0.35]);
    is_let_go(&shots);
    let (bytes, cached) = by_the_rust(&shots);
    let due = drawing(&shots[1]).1;
    assert_eq!(
        (&bytes[..4], &due[..4], cached),
        ([17, 0, 0, 255].as_slice(), [18, 0, 0, 255].as_slice(), [2, 3, 0, 0, 0, 0, 0, 0])
    );
}

/// Under an opaque floor that is painted, since a gradient lies above it: the painter reads the clear colour, times 0.
#[test]
fn a_clear_color_under_an_opaque_floor() {
    let mut above = draw(1, [0.45, 0.6, 0.05, 0.5]);
    above.record.fill = 1;
    let layers = [draw(0, BLUE), above];
    let mut shots = frames(&layers, &layers.clone().map(Layer::unchanged));
    is_kept(&shots);
    shots[1].clear = [f32::NAN, 0.0, 0.0, 1.0];
    is_let_go(&shots);
    let (bytes, cached) = by_the_rust(&shots);
    let due = drawing(&shots[1]).1;
    assert_eq!((&bytes[..4], &due[..4]), ([131, 149, 191, 255].as_slice(), [0, 149, 191, 255].as_slice()));
    assert_eq!(cached, [2, 2, 0, 0, 0, 0, 0, 0]);
    // An equal one of other bits is not the same either, and a NaN of the same bits is.
    shots[0].clear = [0.0, 0.25, 0.0, 1.0];
    shots[1].clear = [-0.0, 0.25, 0.0, 1.0];
    is_let_go(&shots);
    shots.iter_mut().for_each(|shot| shot.clear = [f32::NAN, 0.0, f32::INFINITY, 0.5]);
    is_kept(&shots);
}

/// Each mode, fill, rule and alpha at the top of a tile whose hidden layers are exchanged, and of one where the topmost
/// leaves; under each clear colour.
#[test]
fn every_style_above_a_floor() {
    let clears = [BLACK, [0.0, 0.0, 0.0, 0.35], [f32::NAN, 0.0, 0.0, 1.0], [0.0, f32::INFINITY, 0.0, 0.5]];
    let styles = (0..16).map(|mode| (0, mode)).chain([(1, 0), (2, 0), (1, 13), (2, 2)]);
    let choices = styles.flat_map(|style| [0.0, 0.5, 1.0].map(|alpha| (style, alpha)));
    let choices = choices.flat_map(|(style, alpha)| [0, 1].map(|rule| (style, alpha, rule)));
    for ((fill, mode), alpha, rule) in choices {
        let mut top = draw(3, [0.25, 0.75, 0.5, alpha]);
        (top.record.fill, top.record.mode, top.record.rule) = (fill, mode, rule);
        let before = [draw(0, GREEN), draw(2, RED), top.clone()];
        let exchanged = [draw(1, BLUE), draw(2, RED).unchanged(), top.clone().unchanged()];
        let left = [draw(0, GREEN).unchanged(), draw(1, BLUE), draw(2, RED).unchanged()];
        let is_floor = (fill, mode, alpha) == (0, 0, 1.0);
        for clear in clears {
            let shots = |now: &[Layer]| frames(&before, now).map(|shot| Shot { clear, ..shot });
            is_kept(&shots(&exchanged));
            is_let_go(&shots(&left));
            let lower = [draw(0, GREEN), draw(1, BLUE), top.clone().unchanged()];
            if is_floor {
                is_kept(&shots(&lower));
            } else {
                is_drawn(&shots(&lower));
            }
        }
    }
}

#[derive(Debug, Default)]
struct Pairs {
    none: usize,
    wrong: usize,
    alike: usize,
    kept: usize,
}

/// Where the history keeps a tile, it is drawn alike, and the bytes of the Rust's fresh painting stand there; and of the
/// tiles that the passes keep it keeps all that are drawn alike.
fn random_pairs(seed: u64, count: usize) -> Pairs {
    let mut random = Random::new(seed);
    let mut pairs = Pairs::default();
    for _ in 0..count {
        let shots = any_pair(&mut random);
        let Pair { is_none, is_alike, is_kept } = pair(&shots);
        assert_eq!(is_kept, is_none && is_alike, "{shots:?}");
        pairs.none += usize::from(is_none);
        pairs.alike += usize::from(is_none && is_alike);
        pairs.kept += usize::from(is_kept);
        pairs.wrong += usize::from(is_none && drawing(&shots[0]).1 != drawing(&shots[1]).1);
    }
    println!("{count} pairs of frames, seed {seed}: {pairs:?}");
    pairs
}

#[test]
fn pairs_of_frames() {
    let pairs = random_pairs(45, 20_000);
    assert!(pairs.kept > 2_000 && pairs.none > pairs.alike && pairs.wrong > 0);
}

#[test]
#[ignore = "a minute"]
fn many_pairs_of_frames() {
    random_pairs(46, 200_000);
}

// ---- random histories

/// Flags that are truthful since the frame before, with crops, first tiles and clear colours that vary.
#[test]
fn histories_keep_no_wrong_tile() {
    let mut random = Random::new(36);
    let (mut tiles, mut none, mut settled) = (0, 0, 0);
    for _ in 0..20_000 {
        let mut shown = vec![Shown::default(); TILES];
        for (number, shot) in any_history(&mut random).iter().enumerate() {
            let kept = show(number, shot, &mut shown);
            let count = |outcome| kept.iter().filter(|&&one| one == outcome).count();
            tiles += kept.len();
            none += count(Outcome::None);
            settled += count(Outcome::Settled);
        }
    }
    println!("{tiles} tiles, {none} kept by none, {settled} by settling");
    assert!(none > tiles / 12 && settled > tiles / 12);
}

#[derive(Debug, Default, Eq, PartialEq)]
struct Counts {
    tiles: usize,
    kept: usize,
    wrong: usize,
}

/// A tile from frame to frame: its bytes, what it shows, and its last work.
#[derive(Clone, Default)]
struct Tile {
    cached: Cached,
    shown: Vec<[u8; 4]>,
    last: Option<Last>,
}

/// Every tile of the frames, with its real bytes, by the Rust's own passes. By the rule a tile's count is dropped first
/// where it may not stay.
fn run_all(shots: &[Shot], is_by_rule: bool, counts: &mut Counts) {
    let mut tiles = vec![Tile::default(); TILES];
    for (frame, shot) in shots.iter().enumerate() {
        let (from, to) = shot.tiles;
        let mut picture = shot.picture(None);
        let table = Table::new(&picture.records);
        let mut row = Row::open(0, from, to, &picture.words, &table);
        let mut again = Row::open(0, from, to, &picture.words, &table);
        for (at, tile) in (from..to).zip(&mut tiles[from..to]) {
            let afresh = again.work(at, &picture.frame, None);
            let due = if let Some((bytes, _)) = afresh.settled { vec![bytes; 256] } else { again.pixels(RGBA) };
            let now = Last { frame, from, clear: shot.clear, shown: shown_layers(&afresh, &picture.records) };
            if is_by_rule && !tile.last.as_ref().is_some_and(|last| last.may_keep(&now)) {
                tile.cached.0[0] &= 1;
            }
            picture.frame.previous_clear = tile.last.as_ref().map(|last| last.clear);
            let worked = row.work(at, &picture.frame, Some(tile.cached));
            tile.cached = worked.cached.unwrap().1;
            counts.tiles += 1;
            match (worked.settled, worked.decision) {
                (Some((bytes, true)), _) => tile.shown = vec![bytes; 256],
                (None, Decision::Paint) => tile.shown = row.pixels(RGBA),
                _ => counts.kept += 1,
            }
            counts.wrong += usize::from(tile.shown != due);
            tile.last = Some(now);
        }
    }
}

#[test]
fn the_rule_keeps_no_wrong_tile() {
    let mut random = Random::new(34);
    let (mut plain, mut ruled) = (Counts::default(), Counts::default());
    for _ in 0..20_000 {
        let shots = any_history(&mut random);
        run_all(&shots, false, &mut plain);
        run_all(&shots, true, &mut ruled);
    }
    println!("without the rule {plain:?}, with it {ruled:?}");
    assert_eq!(ruled.wrong, 0);
    assert!(plain.wrong > 0 && ruled.kept > plain.kept / 2);
}
