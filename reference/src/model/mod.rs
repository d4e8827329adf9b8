//! What documents 01 and 02 say, written down from them alone. Each module rests on those above
//! it.

pub mod format;
pub mod literal;
pub mod tree;

pub mod rules;

pub mod generated;
pub mod merged;

pub mod events;
pub mod marks;
pub mod opposed;
pub mod places;
pub mod runs;
pub mod verdict;

pub mod blocked;
pub mod members;

pub mod monitor;
pub mod sequence;
pub mod summary;
pub mod waits;

pub mod listing;

pub mod calls;
