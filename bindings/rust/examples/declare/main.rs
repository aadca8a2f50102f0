//! Makes the declarations of the library's exports from its sources: `cargo run --example declare` writes
//! src/exports.rs and bindings/c/tile_rows.h. tests/declarations.rs holds both files to what this makes.

mod declarations;

use std::fs;

fn main() {
    for (path, text) in declarations::files() {
        fs::write(&path, text).expect("the file can be written");
        println!("{}", path.display());
    }
}
