//! Opposed postconditions (02, 104), straight from 02's words: two tasks leave a flag opposite ways
//! under unordered children of an all-of group.
//!
//! Only for small plans: chains of orders are followed anew each time.

use crate::model::format::{Plan, CLEAR, POSTCONDITION, SET};
use crate::model::literal::Literal;

impl Plan {
    /// Whether two tasks do so under children of a group that is the node or stands below it.
    pub fn has_opposed(&self, node: usize, flag: u16) -> bool {
        let nodes = 0..self.nodes.len();
        let mut groups = nodes.filter(|&group| self.is_all_of(group) && self.is_under(group, node));
        groups.any(|group| self.opposed_below(group, flag))
    }

    /// Whether two tasks do so under children of this all-of group.
    fn opposed_below(&self, group: usize, flag: u16) -> bool {
        self.children(group).any(|one| {
            self.leaves_under(one, Literal::new(flag, SET))
                && self.children(group).any(|other| {
                    self.unordered(one, other)
                        && self.leaves_under(other, Literal::new(flag, CLEAR))
                })
        })
    }

    fn leaves_under(&self, node: usize, literal: Literal) -> bool {
        let mut tasks = self.tasks_under(node);
        tasks.any(|task| self.has(task, POSTCONDITION, literal))
    }

    /// Different, and no chain of orders leads from one to the other.
    fn unordered(&self, one: usize, other: usize) -> bool {
        one != other && !self.leads(one, other) && !self.leads(other, one)
    }

    /// Whether a chain of orders leads from the one to the other. No chain leads back to where it
    /// began.
    fn leads(&self, from: usize, to: usize) -> bool {
        let mut next = self
            .orders
            .iter()
            .filter(|o| usize::from(o.earlier) == from);
        next.any(|order| {
            let later = usize::from(order.later);
            later == to || self.leads(later, to)
        })
    }
}

#[cfg(test)]
mod tests {
    use super::*;
    use crate::model::format::{node, Condition, Order, ALL_OF, ANY_OF, NO_PARENT, TASK};

    /// An all-of root with a group of this kind, in which two tasks leave flag 0 opposite ways.
    fn nested(kind: u8, orders: Vec<Order>) -> Plan {
        let root = node(NO_PARENT, ALL_OF);
        Plan {
            flags: 1,
            start: [0; 8],
            nodes: vec![
                root,
                node(0, kind),
                node(1, TASK),
                node(1, TASK),
                node(1, TASK),
            ],
            conditions: vec![
                Condition::new(2, POSTCONDITION, 0, SET),
                Condition::new(4, POSTCONDITION, 0, CLEAR),
            ],
            orders,
        }
    }

    #[test]
    fn at_the_group_and_above_it() {
        let at = |plan: &Plan| [0, 1, 2, 3, 4].map(|node| plan.has_opposed(node, 0));
        let above = [true, true, false, false, false];
        assert_eq!(at(&nested(ALL_OF, Vec::new())), above);
        assert_eq!(at(&nested(ALL_OF, vec![Order::new(2, 3)])), above);
        assert_eq!(at(&nested(ALL_OF, vec![Order::new(2, 4)])), [false; 5]);
        let chain = vec![Order::new(2, 3), Order::new(3, 4)];
        assert_eq!(at(&nested(ALL_OF, chain)), [false; 5]);
        assert_eq!(at(&nested(ANY_OF, Vec::new())), [false; 5]);
    }
}
