//! A job text in, the lines of the row program out: `cargo run --example job FILE`, or from standard input.

mod support;

use std::{
    env, fs,
    io::{self, Read},
};

fn main() -> io::Result<()> {
    let mut text = Vec::new();
    match env::args_os().nth(1) {
        Some(file) => text = fs::read(file)?,
        None => drop(io::stdin().read_to_end(&mut text)?),
    }
    print!("{}", support::driven::answer(&text));
    Ok(())
}
