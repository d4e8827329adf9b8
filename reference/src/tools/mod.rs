//! What tests and programs need beside the model. Each module rests on those above it.

pub mod valgrind;

pub mod memory;

pub mod archive;
pub mod builder;
pub mod random;

pub mod edit;
pub mod generate;
pub mod search;
pub mod text;

pub mod scenario;
