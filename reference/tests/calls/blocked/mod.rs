//! Calls with a list of blocked nodes.

pub mod promises;
pub mod refusals;
pub mod runs;
pub mod summaries;

use std::iter::repeat_with;
use std::ops::RangeInclusive;

use reference::model::format::Plan;
use reference::tools::generate::dense_plan;
use reference::tools::random::Random;
use reference::tools::scenario::blocked::{branches, passing};
use reference::tools::search::subsets;

/// So many small plans of each number of nodes, all with branches to block.
fn plans(random: &mut Random, nodes: RangeInclusive<usize>, of_each: usize) -> Vec<Plan> {
    let each = nodes.map(|nodes| (nodes, of_each));
    plans_of_sizes(random, each)
}

/// For each number of nodes so many small plans, all with branches to block.
fn plans_of_sizes(random: &mut Random, sizes: impl Iterator<Item = (usize, usize)>) -> Vec<Plan> {
    let mut found = Vec::new();
    for (nodes, plans) in sizes {
        let drawn = repeat_with(|| dense_plan(random, nodes));
        let with_branches = drawn.filter(|plan| !branches(plan).is_empty());
        found.extend(with_branches.take(plans));
    }
    found
}

/// The plans, each with an accepted list of at least one node. Some have none that passes 29.
fn with_lists(random: &mut Random, plans: Vec<Plan>) -> Vec<(Plan, Vec<usize>)> {
    let with_list = |plan: Plan| {
        let mut drawn = (0..16).map(|_| passing(random, &plan));
        let blocked = drawn.find(|blocked| !blocked.is_empty())?;
        Some((plan, blocked))
    };
    plans.into_iter().filter_map(with_list).collect()
}

/// The lists of some of the plan's branches, the empty one too.
fn lists_of_branches(plan: &Plan) -> impl Iterator<Item = Vec<usize>> {
    [Vec::new()].into_iter().chain(subsets(branches(plan)))
}
