//! Marks 0 to 7 of every node by rules over its children, for plans of any size.

mod all_of;
mod entry;
mod facts;
mod relation;

use crate::model::format::{Condition, Plan, ALL_OF, OPTIONAL, TASK};
pub use entry::Marks;
use facts::Pair;
use relation::Before;

/// The marks at every node, for each the literals in the order of a summary's entries.
pub fn marks(plan: &Plan) -> Vec<Vec<Marks>> {
    let mut found = vec![Vec::new(); plan.nodes.len()];
    for nodes in by_flag(plan) {
        for (node, pair) in nodes.into_iter().enumerate() {
            found[node].extend(pair.map(|facts| facts.marks));
        }
    }
    found
}

/// The marks at the root, in the same order, each flag's worked out when they are asked for.
pub fn root_marks(plan: &Plan) -> impl Iterator<Item = Marks> + '_ {
    by_flag(plan).flat_map(|nodes| nodes[0].map(|facts| facts.marks))
}

/// For one flag after another the facts about it at every node.
fn by_flag(plan: &Plan) -> impl Iterator<Item = Vec<Pair>> + '_ {
    let before = Before::new(plan);
    (0..plan.flags).map(move |flag| of_flag(plan, &before, flag))
}

/// The facts about one flag at every node. Children have higher numbers than their parent.
fn of_flag(plan: &Plan, before: &Before, flag: u16) -> Vec<Pair> {
    let on_flag = |condition: &&Condition| condition.flag() == flag;
    let conditions: Vec<Condition> = plan.conditions.iter().filter(on_flag).copied().collect();
    let mut found = vec![None; plan.nodes.len()];
    for node in (0..plan.nodes.len()).rev() {
        let children: Vec<(usize, Pair)> = plan
            .children(node)
            .map(|child| (child, found[child].expect("children come first")))
            .collect();
        let branches = || children.iter().map(|(_, pair)| *pair).collect::<Vec<_>>();
        found[node] = Some(match plan.nodes[node].kind {
            TASK => facts::task(&conditions, node as u8, flag),
            ALL_OF => all_of::facts(before, &children),
            OPTIONAL => facts::optional(&branches()),
            _ => facts::any_of(&branches()),
        });
    }
    found.into_iter().flatten().collect()
}
