//! Painting layers of the tile just worked.

use reference::plain::Painted;

use crate::{
    calls::{any_call, damage, refusal, worked_row},
    given::{Canvas, Memory, State, Work},
    judge::{self, is_short, Tile},
    layers::records,
    library,
    memory::{carries, input, REFUSED},
    models::{Judged, Tables},
    random::Random,
    tally::{caught, Kind, Tally},
};

pub fn compare(tally: &mut Tally) {
    tally.random("paint_layer, any layers of a tile", any_layers);
}

/// A plane of 256 numbers or more, none of which is a coverage; at times too short.
pub fn any_canvas(random: &mut Random, state: State, may_be_short: bool) -> Canvas {
    let len = if may_be_short && random.once_in(8) {
        random.pick(&[0, 255])
    } else {
        256 + random.below(2) * random.below(9)
    };
    Canvas { state, plane: (0..len).map(|i| -1000.0 - i as f32).collect(), mark: random.word() as u32 }
}

/// What the canvas is after a layer that the Rust paints so.
pub fn expected(before: &Canvas, painted: &Painted) -> Canvas {
    let mut after = before.clone();
    after.plane[..256].copy_from_slice(&painted.plane);
    after.mark = painted.mark;
    let [flag, last] = painted.clip.map_or([0, 0], |last| [1, last]);
    after.state.words[4..].copy_from_slice(&[flag, last]);
    after
}

/// The layers that a painted tile paints, one call each.
pub fn paint_all(kind: &mut Kind, call: &Work, state: State, painted: &[Painted]) {
    paint_each(kind, call, state, painted, true);
}

/// Counts a tile that the second model judges; of the layers that the Rust paints there, coverages are compared and
/// marks are not.
pub fn paint_left_out(kind: &mut Kind, call: &Work, state: State, judged: &Judged) {
    if let Some(left_out) = &judged.left_out {
        kind.leave_out(left_out.why, left_out.is_other);
        paint_each(kind, call, state, &left_out.painted, false);
    }
}

fn paint_each(kind: &mut Kind, call: &Work, state: State, painted: &[Painted], with_marks: bool) {
    let mut state = state;
    for painted in painted {
        let before = any_canvas(&mut kind.random, state, false);
        let mut after = before.clone();
        let number = library::paint_layer(call, painted.id, &mut after);
        let mut wanted = expected(&before, painted);
        if !with_marks {
            wanted.mark = after.mark;
        }
        kind.case(number == 0 && after == wanted, || tell(call, painted.id, &before, number, &after, &wanted));
        state = wanted.state;
    }
}

fn tell(call: &Work, layer: u32, before: &Canvas, number: u32, after: &Canvas, wanted: &Canvas) -> String {
    let Work { tile, row, table, queue, .. } = call;
    let held = carries(queue, before.state.counts[1].min(queue.ids.len()).min(queue.covers.len() / 16));
    let planes = after.plane.iter().zip(&wanted.plane).position(|(a, b)| a.to_bits() != b.to_bits());
    format!(
        "tile {tile}, layer {layer}, {:?}, row {row:x?}, {table:?}, {held:?}: the library {number}, {:x} {:?}; \
         wanted {:x} {:?}; planes differ at {planes:?}",
        before.state, after.mark, after.state, wanted.mark, wanted.state
    )
}

/// The number that the scope's table gives for a painting.
fn painting_refusal(call: &Work, layer: u32, canvas: &Canvas) -> u32 {
    let lent_short = is_short(call.queue.ids.len(), call.queue.covers.len()) || canvas.plane.len() < 256;
    let queue = if lent_short { Vec::new() } else { carries(&call.queue, canvas.state.counts[1].min(256)) };
    let tile = Tile { state: canvas.state, tile: call.tile, lent_short, queue: &queue, tag: None };
    judge::painting(&tile, layer, &call.row, &call.table)
}

/// Layers of a worked tile, listed or not, twice or in any order, with damaged calls between.
fn any_layers(kind: &mut Kind) {
    let (call, memory) = any_call(&mut kind.random);
    if refusal(&call, &memory) != 0 {
        kind.note("tile refused");
        return;
    }
    let mut after = memory.clone();
    library::work_tile(&call, &mut after);
    let records = records(&call.table);
    let tables = Tables::new(&records);
    let Some((mut row, judged)) = caught(|| worked_row(&call, &memory, &tables)) else {
        kind.case(false, || format!("{}: the Rust panics", input(&call, &memory)));
        return;
    };
    if let Some(left_out) = &judged.left_out {
        kind.leave_out(left_out.why, left_out.is_other);
    }
    let mut state = after.state;
    for _ in 0..1 + kind.random.below(5) {
        damaged(kind, &call, &memory, state);
        if records.is_empty() {
            return;
        }
        let layer = kind.random.pick(&records).id;
        let before = any_canvas(&mut kind.random, state, false);
        let mut canvas = before.clone();
        let number = library::paint_layer(&call, layer, &mut canvas);
        let painted = row.paint(layer);
        let wanted = expected(&before, &painted);
        kind.note(if painted.mark == 0 { "painted, no octets" } else { "painted" });
        kind.case(number == 0 && canvas == wanted, || tell(&call, layer, &before, number, &canvas, &wanted));
        state = wanted.state;
    }
}

/// A call that some condition may refuse; where none does it is compared elsewhere.
fn damaged(kind: &mut Kind, call: &Work, memory: &Memory, state: State) {
    let mut call = call.clone();
    let mut memory = Memory { state, ..memory.clone() };
    let random = &mut kind.random;
    memory.state.counts.swap(0, 1);
    damage(random, &mut call, &mut memory);
    memory.state.counts.swap(0, 1);
    let layer = random.pick(&[0, 1, 2, 3, 5, 9, u32::MAX]);
    let before = any_canvas(random, memory.state, true);
    let expected = painting_refusal(&call, layer, &before);
    if expected == 0 {
        return;
    }
    kind.note(REFUSED[expected as usize]);
    let mut after = before.clone();
    let number = library::paint_layer(&call, layer, &mut after);
    kind.case(number == expected && after == before, || tell(&call, layer, &before, number, &after, &before));
}
