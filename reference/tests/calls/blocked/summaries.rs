//! The summary of every node and the verdict with blocked nodes.

use reference::model::calls::Answers;
use reference::model::format::{Plan, Sizes};
use reference::tools::generate::clear::{clear_plan, shaken_plan};
use reference::tools::generate::{plan, LIMITS, SHAPES};
use reference::tools::random::Random;
use reference::tools::scenario::blocked::passing;
use reference::tools::scenario::tally::Tally;

use super::{lists_of_branches, plans_of_sizes};
use crate::summaries::{every_node, Marked};

/// Small plans with every list of their branches, or with some where there are many: marks 0 to 6
/// straight from their definitions over runs.
pub fn small(tally: &mut Tally) {
    let mut random = Random::new(161);
    let mut marked = Marked::default();
    let sizes = (2..).zip([200, 600, 1_200, 1_500, 900, 300, 60]);
    for plan in plans_of_sizes(&mut random, sizes) {
        for blocked in lists_of_branches(&plan).skip(1).take(8) {
            let answers = Answers::by_runs(&plan.bytes()).blocking(&blocked);
            every_node(tally, &mut random, &plan, &answers);
            if answers.marks().is_ok() {
                marked.add(&answers);
            }
        }
    }
    marked.at_least(100);
}

/// Plans of 128 nodes and 64 flags with a few nodes blocked, or many.
pub fn large(tally: &mut Tally) {
    let mut random = Random::new(162);
    let mut plans: Vec<Plan> = Vec::new();
    for shape in SHAPES {
        let sizes = Sizes {
            conditions: 200,
            ..LIMITS
        };
        plans.push(plan(&mut random, sizes, shape));
        plans.push(clear_plan(&mut random, LIMITS, shape));
        plans.extend((0..2).map(|_| shaken_plan(&mut random, LIMITS, shape)));
    }
    for plan in plans {
        for _ in 0..3 {
            let blocked = passing(&mut random, &plan);
            let answers = Answers::by_rules(&plan.bytes()).blocking(&blocked);
            every_node(tally, &mut random, &plan, &answers);
        }
    }
}
