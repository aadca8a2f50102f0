//! The pages of the inspector. Each is one text, needs no network, and shows all its numbers without a script.

#![allow(dead_code, unused_imports)] // the example and the tests use a part each

pub mod beside;
mod bitmap;
mod colors;
pub mod composed;
mod document;
pub mod frames;
pub mod histories;
pub mod input;
mod lanes;
mod pictures;
pub mod plate;
mod row;
pub mod search;
mod tile;
mod trace_text;
pub mod words;

pub use row::{page, row_page};
