//! An independent Rust program to documents 01 and 02, and what its tests are made of.
//!
//! The model shares no table and no algorithm with the proved crates and imports nothing from the
//! tools. Of these `archive` alone calls the proved crates, so `rt lib` in `crates/capi` of
//! the repository comes before `cargo test --offline` here.

pub mod model;
pub mod tools;
