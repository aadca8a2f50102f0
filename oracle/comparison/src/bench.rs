//! Times of the library beside the Rust: the tables that `oracle/bench` prints.

use std::hint::black_box;

use crate::{
    tally::caught,
    timed_batches, timed_bounds, timed_crate, timed_four_high, timed_parts, timed_revisions, timed_rows, timed_sets,
    timed_tiles, timed_words,
    timing::{Bench, ROUNDS},
};

/// With a word, only the lines whose name has it.
pub fn print(only: String) {
    if caught(|| black_box(i8::MAX) + black_box(1)).is_none() {
        println!("Overflow checks are on: these times say nothing. The profile `timing` has none.");
    }
    println!("Nanoseconds: best / median of {ROUNDS} rounds, with all sides in turn.");
    println!("Beside each build of the Rust: its best, and ours by it, of the best / median of the rounds' own.");
    println!("Where two sides of ours are timed: the second by the first. README.md has what is comparable.");
    let bench = &mut Bench::new(only);
    bench.title("One layer in one tile, alone");
    timed_parts::print_alone(bench);
    bench.title("One layer in one tile, of a table");
    timed_parts::print_of_table(bench);
    bench.titled("One layer in one tile, 16 and 4 pixels high", ["256 pixels", "64 pixels"]);
    timed_four_high::print(bench);
    bench.title("Searches");
    timed_words::print_searches(bench);
    bench.title("Packing, and the order of a row");
    timed_words::print_packing(bench);
    timed_words::print_order(bench);
    bench.title("Opening a row");
    timed_rows::print_openings(bench);
    bench.title("Whole rows");
    timed_rows::print(bench);
    bench.title("Whole rows in batches");
    timed_batches::print(bench);
    bench.title("One batch: ns a segment, a tile, a painted layer");
    timed_batches::print_doubling(bench);
    bench.titled("A tile's work as one call and as two", ["one call", "list, decide"]);
    timed_tiles::print(bench);
    bench.titled("Whole rows by the crate of bindings/rust", ["exports", "the crate"]);
    timed_crate::print(bench);
    bench.titled("A kept set of segments", ["begun anew", "edited"]);
    timed_sets::print(bench);
    bench.titled("Covers within bounds", ["painted four times", "bounded"]);
    timed_bounds::print(bench);
    bench.titled("Records of which some stand", ["plain Rust", "here"]);
    timed_revisions::print(bench);
}
