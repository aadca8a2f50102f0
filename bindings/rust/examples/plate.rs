//! Many rows in batches of tiles, on several threads: `cargo run --release --example plate [ROWS [TILES [THREADS]]]`. Prints how many tiles
//! got each decision, and how long it took.

mod support;

use std::{env, thread, time::Instant};

use support::plates;

fn main() {
    let mut words = env::args().skip(1).map(|word| word.parse::<usize>().expect("a whole number"));
    let rows = words.next().unwrap_or(64).clamp(1, 2047);
    let tiles = words.next().unwrap_or(64).clamp(1, 4095);
    let threads = words.next().unwrap_or_else(|| thread::available_parallelism().map_or(1, usize::from)).max(1);
    let segments = plates::made(1, rows as i16, tiles as i16);
    let start = Instant::now();
    let told = plates::worked(&segments, rows, 0..tiles as i32, threads).expect("nothing of the plate is turned down");
    let time = start.elapsed();
    let count = |word: &str| told.iter().flatten().filter(|tile| tile.decision.word() == word).count();
    println!("{rows} rows of {tiles} tiles, {} segments, {threads} threads: {time:?}", segments.len());
    println!("none {}, solid {}, paint {}", count("none"), count("solid"), count("paint"));
}
