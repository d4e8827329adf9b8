//! Each refusal on both sides of each of its boundaries, with numbers expected by hand.

pub mod conditions;
pub mod nodes;
pub mod orders;
pub mod sizes;
