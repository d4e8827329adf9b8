//! "Before" between children of all-of groups.

use crate::model::format::Plan;

/// Which node stands before which, by chains of orders.
pub struct Before {
    /// For each node, which nodes stand after it.
    table: Vec<Vec<bool>>,
}

impl Before {
    pub fn new(plan: &Plan) -> Before {
        let nodes = plan.nodes.len();
        let mut table = vec![vec![false; nodes]; nodes];
        for order in &plan.orders {
            table[usize::from(order.earlier)][usize::from(order.later)] = true;
        }
        for middle in 0..nodes {
            let after_middle = table[middle].clone();
            for after in table.iter_mut().filter(|after| after[middle]) {
                for (stands, through_middle) in after.iter_mut().zip(&after_middle) {
                    *stands |= through_middle;
                }
            }
        }
        Before { table }
    }

    pub fn holds(&self, earlier: usize, later: usize) -> bool {
        self.table[earlier][later]
    }

    /// Different, and neither before the other.
    pub fn unordered(&self, one: usize, other: usize) -> bool {
        one != other && !self.holds(one, other) && !self.holds(other, one)
    }
}
