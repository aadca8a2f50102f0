//! Listing alone (W-206): the list, the carries and the state against the Rust's on the same tile. A painting may
//! follow at once.

use crate::{
    calls::{any_call, damage, listing_refusal, worked_row},
    given::{Memory, Work},
    layers::records,
    memory::{brief, input, listed, told, REFUSED},
    models::Tables,
    paintings::{paint_all, paint_left_out},
    tally::{caught, Kind, Tally},
    tiles::{any_crowd, arrangements},
    two_calls,
};

pub fn compare(tally: &mut Tally) {
    tally.random("listing, single calls", single);
    tally.random("listing, crowds of layers", |kind| {
        let (call, memory) = any_crowd(&mut kind.random);
        check(kind, &call, &memory);
    });
    tally.kind("listing, every arrangement of up to two layers", |kind| {
        (0..=2).for_each(|layers| arrangements(kind, layers, check))
    });
}

fn single(kind: &mut Kind) {
    let (mut call, mut memory) = any_call(&mut kind.random);
    if kind.random.once_in(2) {
        for _ in 0..1 + kind.random.below(2) {
            damage(&mut kind.random, &mut call, &mut memory);
        }
    }
    check(kind, &call, &memory);
}

/// One listing on both sides; after a refusal every number must be what it was. The Rust is given no cached tile: a
/// listing has none, so the tag may be any.
fn check(kind: &mut Kind, call: &Work, before: &Memory) {
    let number = listing_refusal(call, before);
    kind.note(REFUSED[number as usize]);
    let mut after = before.clone();
    let ours = two_calls::list_tile(call, &mut after);
    if number != 0 {
        kind.case(ours == number && after == *before, || {
            format!("{}: expected {number}, the library {ours}, {}", input(call, before), told(&after, before))
        });
        return;
    }
    let tables = Tables::new(&records(&call.table));
    let tile = Work { is_kept: false, ..call.clone() };
    let Some((_, judged)) = caught(|| worked_row(&tile, before, &tables)) else {
        kind.case(false, || format!("{}: the Rust panics", input(call, before)));
        return;
    };
    let worked = &judged.worked;
    let wanted = listed(before, worked);
    kind.case(ours == 0 && after == wanted, || {
        format!("{}: the library {ours}, {}; the Rust {}", input(call, before), told(&after, &wanted), brief(worked))
    });
    paint_all(kind, call, after.state, &worked.painted);
    paint_left_out(kind, call, after.state, &judged);
}
