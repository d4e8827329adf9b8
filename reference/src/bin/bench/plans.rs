//! The plans on which the verdict is set against plain Rust: all have 128 nodes and 64 flags.

use std::iter::repeat_with;

use reference::model::format::{Plan, ALL_OF};
use reference::model::verdict::{verdict, Verdict};
use reference::tools::generate::clear::{clear_plan, shaken_plan};
use reference::tools::generate::{Shape, LIMITS};
use reference::tools::random::Random;

const SHAPES: [(&str, Shape); 4] = [
    ("flat", Shape::FLAT),
    ("bushy", Shape::BUSHY),
    ("even", Shape::EVEN),
    ("deep", Shape::DEEP),
];

/// For each shape a plan of this verdict with an all-of root and no optional group, drawn until
/// there is one.
pub fn of_verdict(wanted: Verdict) -> Vec<(&'static str, Plan)> {
    let mut random = Random::new(101);
    let draw = match wanted {
        Verdict::Clear => clear_plan,
        _ => shaken_plan,
    };
    let mut of_shape = |shape: Shape| {
        let mut drawn = repeat_with(|| draw(&mut random, LIMITS, shape.without_optional()));
        drawn.find(|plan| plan.nodes[0].kind == ALL_OF && verdict(plan) == wanted)
    };
    let named = SHAPES.map(|(name, shape)| (name, of_shape(shape).expect("draws never end")));
    named.to_vec()
}
