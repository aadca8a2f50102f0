//! Random rows with their layer tables, worked over several frames.

use std::collections::BTreeMap;

use reference::{
    cpu::{Channel, BGR0, BGRA, RGB1, RGBA},
    painter::row::Frame,
    plain::{Record, Rgba},
};

use crate::{
    given::{Fields, LAYER_LIMIT},
    random::Random,
};

/// A row of tiles, and what each frame draws in it.
#[derive(Clone, Debug)]
pub struct Scene {
    pub tile_y: usize,
    pub from: usize,
    pub to: usize,
    /// How many tiles a buffer of the row has.
    pub tiles: usize,
    /// Whether tiles are kept from frame to frame.
    pub caches: bool,
    pub pictures: Vec<Picture>,
}

/// One frame: the row's words, ascending, the table, and what tiles are cleared to.
#[derive(Clone, Debug)]
pub struct Picture {
    pub words: Vec<u64>,
    pub records: Vec<Record>,
    pub frame: Frame,
}

/// A packed word of fields in range.
pub fn word(fields: Fields) -> u64 {
    let Fields { layer_id, tile_x, tile_y, local_x, local_y, double_area_multiplier, cover } = fields;
    u64::from((tile_y + 1) as u16) << 53
        | u64::from((tile_x + 1) as u16) << 41
        | u64::from(layer_id) << 20
        | u64::from(local_x) << 16
        | u64::from(local_y) << 12
        | u64::from(double_area_multiplier) << 6
        | u64::from(cover as u8 & 63)
}

/// A row that no condition refuses: covers of a layer and pixel row, in absolute value, add up to 127 at most. In every
/// other row no NonZero carry is above 16, so that the Rust judges all of its tiles; in the others windings are 1 to 3.
pub fn any_scene(random: &mut Random) -> Scene {
    let tiles = 1 + random.below(6);
    let from = if random.once_in(3) { random.below(tiles + 1) } else { 0 };
    let to = if random.once_in(3) { from + random.below(tiles - from + 1) } else { tiles };
    let tile_y = random.pick(&[0, 1, 77, 2046]);
    let records = any_table(random);
    let is_wound = random.once_in(2);
    let (loads, words) = (BTreeMap::new(), Vec::new());
    let mut shapes = Shapes { random, tile_y: tile_y as i16, tiles: tiles as i16, is_wide: true, loads, words };
    for record in &records {
        shapes.is_wide = is_wound || record.rule == 1;
        if !shapes.random.once_in(5) {
            shapes.draw(record);
        }
    }
    let words = shapes.words;
    let mut scene = Scene { tile_y, from, to, tiles, caches: !random.once_in(4), pictures: Vec::new() };
    let mut picture = Picture { words, records, frame: any_frame(random) };
    picture.words.sort();
    for _ in 0..1 + random.below(4) {
        scene.pictures.push(picture.clone());
        next_picture(random, &mut picture);
    }
    scene
}

/// Some layers change, some go, and the clear colour may.
fn next_picture(random: &mut Random, picture: &mut Picture) {
    let previous = picture.frame.clear;
    let keep_all = random.once_in(2);
    let changes = random.pick(&[0, 1, 6]);
    for record in &mut picture.records {
        record.unchanged = u32::from(keep_all || random.below(8) >= changes);
    }
    if !picture.records.is_empty() && random.once_in(3) {
        let gone = random.pick(&picture.records).id;
        picture.words.retain(|word| (word >> 20) as u32 & LAYER_LIMIT != gone);
    }
    if random.once_in(4) {
        picture.frame.clear = any_color(random);
    }
    picture.frame.previous_clear = if random.once_in(8) { None } else { Some(previous) };
}

fn any_frame(random: &mut Random) -> Frame {
    let channels: [[Channel; 4]; 4] = [RGBA, BGRA, BGR0, RGB1];
    Frame {
        clear: any_color(random),
        previous_clear: if random.once_in(2) { Some(any_color(random)) } else { None },
        channels: random.pick(&channels),
    }
}

/// Mostly plain numbers; at times both zeros, infinities and what is no number.
pub fn any_color(random: &mut Random) -> Rgba {
    let plain = [0.0, 0.25, 0.5, 0.75, 1.0];
    let odd = [f32::NAN, -0.0, 0.0, f32::INFINITY, -1.0, 2.0, f32::MIN_POSITIVE];
    let mut color = [(); 4].map(|()| random.pick(&plain));
    if !random.once_in(3) {
        color[3] = 1.0;
    }
    if random.once_in(12) {
        color[random.below(4)] = random.pick(&odd);
    }
    color
}

/// Ids ascending with gaps; clips, clipped draws and draws in any arrangement.
pub fn any_table(random: &mut Random) -> Vec<Record> {
    let count = match random.below(10) {
        0 => 0,
        9 => random.below(40),
        _ => 1 + random.below(6),
    };
    let clips = random.pick(&[0, 2, 4]);
    let step = random.pick(&[1, 1, 2, 5, 1000]);
    let mut id = random.below(4) as u32;
    (0..count)
        .map(|_| {
            let record = any_record(random, id, clips);
            id += 1 + random.below(step) as u32;
            record
        })
        .collect()
}

/// A layer; of eight, `clips` are clips, and as many of the draws are clipped.
pub fn any_record(random: &mut Random, id: u32, clips: usize) -> Record {
    let func = u32::from(random.below(8) < clips);
    let long = random.once_in(6);
    Record {
        id,
        rule: random.below(2) as u32,
        func,
        span: if func == 0 {
            0
        } else if long {
            LAYER_LIMIT
        } else {
            random.below(6) as u32
        },
        clipped: if func == 1 { 0 } else { u32::from(random.below(8) < clips) },
        fill: if random.once_in(8) { 1 + random.below(2) as u32 } else { 0 },
        mode: if random.once_in(5) { random.below(16) as u32 } else { 0 },
        unchanged: u32::from(!random.once_in(3)),
        color: any_color(random),
    }
}

/// Segments of layers, with the absolute covers of each layer and pixel row so far: of those above 0, and those below.
struct Shapes<'r> {
    random: &'r mut Random,
    tile_y: i16,
    tiles: i16,
    /// Whether the layer's covers may add up to more than 16.
    is_wide: bool,
    loads: BTreeMap<(u32, u8), [u32; 2]>,
    words: Vec<u64>,
}

impl Shapes<'_> {
    fn draw(&mut self, record: &Record) {
        match self.random.below(6) {
            0 => self.noise(record.id),
            1 => {
                self.noise(record.id);
                self.band(record.id);
            }
            _ => self.band(record.id),
        }
    }

    /// Full covers from one tile on, in all rows or some, that end in a later tile or never.
    fn band(&mut self, layer_id: u32) {
        let start = self.random.within(-1..=i64::from(self.tiles) - 1) as i16;
        let end = self.random.within(i64::from(start)..=i64::from(self.tiles) + 1) as i16;
        let cover = self.random.pick(if self.is_wide { &[16, 16, 16, -16, 31, -32, 8] } else { &[16, 16, 16, -16, 8] });
        let windings = if self.is_wide { self.random.pick(&[1, 1, 2, 2, 3]) } else { 1 };
        let rows = if self.random.once_in(4) { self.random.below(16) as u8..16 } else { 0..16 };
        let (x, multiplier) = (self.random.below(16) as u8, self.random.below(33) as u8);
        for local_y in rows {
            for _ in 0..windings {
                self.add(layer_id, start, x, local_y, multiplier, cover);
                if end > start && end < self.tiles {
                    self.add(layer_id, end, x, local_y, multiplier, if cover == -32 { 31 } else { -cover });
                }
            }
        }
    }

    fn noise(&mut self, layer_id: u32) {
        for _ in 0..self.random.below(30) {
            let tile_x = self.random.within(-1..=i64::from(self.tiles)) as i16;
            let (x, y) = (self.random.below(16) as u8, self.random.below(16) as u8);
            let covers = if self.is_wide { -32..=31 } else { -8..=8 };
            let (multiplier, cover) = (self.random.below(64) as u8, self.random.within(covers) as i8);
            self.add(layer_id, tile_x, x, y, multiplier, cover);
        }
    }

    /// A segment, unless its pixel row would grow too heavy or its carries too wide.
    fn add(&mut self, layer_id: u32, tile_x: i16, local_x: u8, local_y: u8, double_area_multiplier: u8, cover: i8) {
        let load = self.loads.entry((layer_id, local_y)).or_default();
        let mut heavier = *load;
        heavier[usize::from(cover < 0)] += u32::from(cover.unsigned_abs());
        let [above, below] = heavier;
        if above + below <= 127 && (self.is_wide || above.max(below) <= 16) {
            *load = heavier;
            let tile_y = self.tile_y;
            self.words.push(word(Fields { layer_id, tile_x, tile_y, local_x, local_y, double_area_multiplier, cover }));
        }
    }
}
