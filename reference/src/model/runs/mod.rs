//! Marks 0 to 6 by exhaustive search over executions (01: free runs), straight from their
//! definitions; to mark 6 come opposed postconditions (02, 104), which no execution shows.
//!
//! Only for small plans: the search grows with 3 to the number of tasks.

mod graph;
mod history;

use crate::model::format::Plan;
use crate::model::marks::{self, Marks};
use graph::Graph;
use history::{histories, History};

/// What the executions of a node show of one literal.
#[derive(Clone, Copy, Debug, PartialEq, Eq)]
pub struct Shown {
    /// Marks 0 to 6.
    pub marks: [bool; 7],
    /// In every completed execution a task with this precondition starts after the opposite was
    /// last asserted. The rule for mark 7 is to give no less.
    pub always_clobbered: bool,
    /// In some execution the literal is clobbered as 01 says: mark 6 but for opposed
    /// postconditions.
    pub clobbered: bool,
    /// In some execution a task with this postcondition and one with the opposite run at once. 02
    /// says when by the groups above them, and is to give the same.
    pub opposed_at_once: bool,
}

/// The marks at every node: 0 to 6 as the runs show them, 7 by its rule.
pub fn marks(plan: &Plan) -> Vec<Vec<Marks>> {
    let by_rules = marks::marks(plan);
    let of_node = |(node, rules): (usize, &Vec<Marks>)| {
        let entries = shown(plan, node).into_iter().zip(rules);
        let entry = |(runs, rules): (Shown, &Marks)| {
            let [a, b, c, d, e, f, g] = runs.marks;
            Marks::from_order([a, b, c, d, e, f, g, rules.must_clobber])
        };
        entries.map(entry).collect()
    };
    by_rules.iter().enumerate().map(of_node).collect()
}

/// What is shown of every literal at the node, in the order of a summary's entries.
pub fn shown(plan: &Plan, node: usize) -> Vec<Shown> {
    shown_without(plan, node, &[])
}

/// The same, as far as the executions show it that have no event of these absent nodes. Opposed
/// postconditions are still those of the whole plan.
pub fn shown_without(plan: &Plan, node: usize, absent: &[usize]) -> Vec<Shown> {
    let graph = Graph::new(plan, node, absent);
    let of_literal = |literal| {
        let all = histories(plan, &graph, literal);
        let completed: Vec<&History> = all.iter().filter(|h| h.completed).collect();
        assert!(!completed.is_empty(), "every node can be completed");
        let some = |shows: fn(&History) -> bool| completed.iter().any(|h| shows(h));
        let every = |shows: fn(&History) -> bool| completed.iter().all(|h| shows(h));
        let clobbered = all.iter().any(|h| h.unmet || h.broken);
        Shown {
            marks: [
                some(|h| h.exposed),
                every(|h| h.exposed),
                some(|h| h.last == Some(true)),
                every(|h| h.last == Some(true)),
                some(|h| h.held),
                every(|h| h.held),
                clobbered || plan.has_opposed(node, literal.flag),
            ],
            always_clobbered: every(|h| h.unmet),
            clobbered,
            opposed_at_once: graph.opposed_at_once(plan, literal),
        }
    };
    plan.literals().map(of_literal).collect()
}
