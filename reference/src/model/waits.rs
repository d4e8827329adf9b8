//! Lengths and longest waits, in minutes.

use crate::model::format::{Plan, ALL_OF, TASK};

/// The length of every node of an accepted plan, and its wait within its group.
pub struct Waits {
    lengths: Vec<u32>,
    within: Vec<u32>,
}

impl Waits {
    /// Children have higher numbers than their parent, later children than earlier ones.
    pub fn new(plan: &Plan) -> Waits {
        let nodes = plan.nodes.len();
        let mut waits = Waits {
            lengths: vec![0; nodes],
            within: vec![0; nodes],
        };
        for node in (0..nodes).rev() {
            if plan.nodes[node].kind == ALL_OF {
                for child in plan.children(node) {
                    waits.within[child] = waits.wait_of_child(plan, child);
                }
            }
            waits.lengths[node] = match plan.nodes[node].kind {
                TASK => u32::from(plan.nodes[node].minutes),
                // In a choice each wait is 0, so that its longest child has the latest end.
                _ => greatest(plan.children(node).map(|child| waits.end(child))),
            };
        }
        waits
    }

    /// Of a child of an all-of group: 0, or the greatest wait plus length among its orders'
    /// earlier nodes.
    fn wait_of_child(&self, plan: &Plan, child: usize) -> u32 {
        let orders = plan.orders.iter();
        let into = orders.filter(|order| usize::from(order.later) == child);
        greatest(into.map(|order| self.end(usize::from(order.earlier))))
    }

    /// Wait within the group plus length.
    fn end(&self, node: usize) -> u32 {
        self.within[node] + self.lengths[node]
    }

    pub fn length(&self, node: usize) -> u32 {
        self.lengths[node]
    }

    /// The sum of the waits within groups from the root down to the node.
    pub fn longest(&self, plan: &Plan, node: usize) -> u32 {
        plan.upwards(node).map(|above| self.within[above]).sum()
    }
}

fn greatest(numbers: impl Iterator<Item = u32>) -> u32 {
    numbers.max().unwrap_or(0)
}
