//! `comparison answers` prints the Rust's answers for the crate `compare`, and writes those of the crates `jobs`,
//! `curve` and `load`.
//! `comparison N SEED`: N random cases of each kind on both sides, or with a word behind, of each kind whose name has
//! it. The last line says how many were compared and how many differ. `comparison bench`, or with a word behind, prints
//! times of both.

use std::{env, process::ExitCode};

use comparison::{
    backwards, batches, bench, bounds, cached, covers, curve, deciding, edited_sets, four_high, four_high_rows, jobs,
    kept_counts, kept_frames, layers, listing, loads, openings, paintings, plates, rows, standing, stored, stored_jobs,
    succession, tally::Tally, tiles, two_rows, words,
};

fn main() -> ExitCode {
    if env::args().nth(1).as_deref() == Some("answers") {
        print!("{}", stored::answers());
        stored_jobs::write();
        curve::write();
        loads::write();
        return ExitCode::SUCCESS;
    }
    if env::args().nth(1).as_deref() == Some("bench") {
        bench::print(env::args().nth(2).unwrap_or_default());
        return ExitCode::SUCCESS;
    }
    let numbers: Vec<u64> = env::args().skip(1).take(2).filter_map(|word| word.parse().ok()).collect();
    let [n, seed] = numbers[..] else {
        eprintln!("usage: comparison N SEED [WORD]");
        return ExitCode::from(2);
    };
    let mut tally = Tally::new(n, seed, env::args().nth(3).unwrap_or_default());
    words::compare(&mut tally);
    covers::compare(&mut tally);
    four_high::compare(&mut tally);
    four_high_rows::compare(&mut tally);
    cached::compare(&mut tally);
    layers::compare(&mut tally);
    plates::compare(&mut tally);
    openings::compare(&mut tally);
    rows::compare(&mut tally);
    tiles::compare(&mut tally);
    paintings::compare(&mut tally);
    listing::compare(&mut tally);
    deciding::compare(&mut tally);
    succession::compare(&mut tally);
    backwards::compare(&mut tally);
    batches::compare(&mut tally);
    standing::compare(&mut tally);
    edited_sets::compare(&mut tally);
    two_rows::compare(&mut tally);
    kept_counts::compare(&mut tally);
    kept_frames::compare(&mut tally);
    bounds::compare(&mut tally);
    jobs::compare(&mut tally);
    stored_jobs::compare(&mut tally);
    curve::compare(&mut tally);
    loads::compare(&mut tally);
    tally.end()
}
