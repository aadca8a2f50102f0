//! What the examples and the tests share: job texts, and rows that are driven from them.

#![allow(dead_code)] // each of them uses a part

pub mod driven;
pub mod job;
pub mod outline;
pub mod plates;
