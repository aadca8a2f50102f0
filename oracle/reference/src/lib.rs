//! The Rust painter, built from its unchanged text (build.rs), and what a comparison asks of it. The crate
//! `double_windings` builds the same with one line changed.

// The Rust's text is what it is. What is written here is held to the lints: below, and in build.rs for reach/.
#![allow(unused, unexpected_cfgs, private_interfaces, clippy::all)]

include!(concat!(env!("OUT_DIR"), "/modules.rs"));

#[warn(unused, clippy::all)]
pub mod plain;
#[warn(unused, clippy::all)]
mod stand_ins;
#[warn(unused, clippy::all)]
mod table;

pub use cpu::painter::reach as painter;
pub use cpu::pixel_segment::reach as pixel_segment;
pub use table::Table;
