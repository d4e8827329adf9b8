//! Blocked branches (02, 108: struck nodes): refusals 28 and 29, and the plan that remains.
//!
//! 02 reads blocked nodes as if their subtrees were absent. Here they are taken out: what remains
//! is a plan of its own, in which the nodes have other numbers.

use crate::model::events::Event;
use crate::model::format::Plan;
use crate::model::marks::Marks;

/// An accepted plan without its blocked subtrees.
pub struct Remaining {
    /// With all its nodes.
    pub whole: Plan,
    /// The nodes that remain, numbered anew in their order, with their conditions and orders. An
    /// optional group may have lost all its branches.
    pub plan: Plan,
    /// For each of these nodes its number in the whole plan.
    pub numbers: Vec<usize>,
}

impl Remaining {
    /// What remains of an accepted plan, or refusal 28 or 29.
    pub fn new(whole: &Plan, blocked: &[usize]) -> Result<Remaining, u32> {
        if !strictly_rise(blocked) || blocked.iter().any(|&number| !is_branch(whole, number)) {
            return Err(28);
        }
        let mut groups = (0..whole.nodes.len()).filter(|&node| !is_absent(whole, blocked, node));
        if groups.any(|group| no_branch_left(whole, blocked, group)) {
            return Err(29);
        }
        Ok(Remaining::without(whole, blocked))
    }

    fn without(whole: &Plan, blocked: &[usize]) -> Remaining {
        let nodes = 0..whole.nodes.len();
        let remains = |&node: &usize| !is_absent(whole, blocked, node);
        let numbers: Vec<usize> = nodes.filter(remains).collect();
        Remaining {
            whole: whole.clone(),
            plan: whole.numbered(&numbers),
            numbers,
        }
    }

    /// The nodes that are blocked or under a blocked node.
    pub fn absent(&self) -> Vec<usize> {
        let nodes = 0..self.whole.nodes.len();
        nodes.filter(|&node| self.anew(node).is_none()).collect()
    }

    /// The number of a node in the plan that remains, if it does.
    pub fn anew(&self, number: usize) -> Option<usize> {
        self.numbers.binary_search(&number).ok()
    }

    /// The event in the plan that remains. Absent nodes stay nodes: 17 or 27 tells whether one is of
    /// the right kind; an absent task cannot be running, so its finish meets 18; its start, or the
    /// skip of an absent group, meets 19.
    pub fn event(&self, event: Event) -> Result<Event, u32> {
        let number = event.node();
        let (of_its_kind, refusal, absent): (bool, u32, u32) = match event {
            Event::Start(_) => (self.whole.is_task(number), 17, 19),
            Event::Finish(_) => (self.whole.is_task(number), 17, 18),
            Event::Skip(_) => (self.whole.is_optional(number), 27, 19),
        };
        if !of_its_kind {
            return Err(refusal);
        }
        let node = self.anew(number).ok_or(absent)?;
        Ok(event.at(node))
    }

    /// The tasks of a list in the plan that remains, or the first of refusals 17 and 18 that a number
    /// of no task or an absent task meets.
    pub fn tasks(&self, tasks: &[usize]) -> Result<Vec<usize>, u32> {
        if tasks.iter().any(|&task| !self.whole.is_task(task)) {
            return Err(17);
        }
        let anew = |&task: &usize| self.anew(task).ok_or(18);
        tasks.iter().map(anew).collect()
    }

    /// Marks of the plan that remains as marks at every node of the whole one: at absent nodes none.
    pub fn spread(&self, marks: &[Vec<Marks>]) -> Vec<Vec<Marks>> {
        let none = vec![Marks::NONE; 2 * usize::from(self.whole.flags)];
        let at = |node| match self.anew(node) {
            Some(node) => marks[node].clone(),
            None => none.clone(),
        };
        (0..self.whole.nodes.len()).map(at).collect()
    }
}

/// Whether each number is above the one before it.
pub fn strictly_rise(numbers: &[usize]) -> bool {
    numbers.windows(2).all(|pair| pair[0] < pair[1])
}

/// Whether the number, which may be any, is that of a child of an any-of or optional group.
pub fn is_branch(plan: &Plan, number: usize) -> bool {
    let is_node = number < plan.nodes.len();
    let parent = || plan.parent(number);
    is_node && parent().is_some_and(|parent| plan.is_choice(parent))
}

/// Whether the node is blocked or under a blocked node.
pub fn is_absent(plan: &Plan, blocked: &[usize], node: usize) -> bool {
    plan.upwards(node).any(|above| blocked.contains(&above))
}

/// Whether it is an any-of group of which every branch is blocked.
fn no_branch_left(plan: &Plan, blocked: &[usize], group: usize) -> bool {
    let mut branches = plan.children(group);
    plan.is_any_of(group) && branches.all(|branch| blocked.contains(&branch))
}

#[cfg(test)]
mod tests {
    use super::*;
    use crate::model::format::{
        node, Condition, Order, ALL_OF, ANY_OF, NO_PARENT, OPTIONAL, POSTCONDITION, SET, TASK,
    };

    /// A choice of a group, in which one task is before another, and of an optional group.
    fn plan() -> Plan {
        Plan {
            flags: 1,
            start: [1, 0, 0, 0, 0, 0, 0, 0],
            nodes: vec![
                node(NO_PARENT, ANY_OF),
                node(0, ALL_OF),
                node(0, OPTIONAL),
                node(1, TASK),
                node(2, TASK),
                node(1, TASK),
            ],
            conditions: [3, 4, 5].map(leaves_set).to_vec(),
            orders: vec![Order::new(3, 5)],
        }
    }

    fn leaves_set(task: u8) -> Condition {
        Condition::new(task, POSTCONDITION, 0, SET)
    }

    #[test]
    fn numbered_anew() {
        let left = Remaining::new(&plan(), &[2]).ok().unwrap();
        assert_eq!(left.numbers, [0, 1, 3, 5]);
        assert_eq!(left.absent(), [2, 4]);
        let want = Plan {
            nodes: vec![
                node(NO_PARENT, ANY_OF),
                node(0, ALL_OF),
                node(1, TASK),
                node(1, TASK),
            ],
            conditions: [2, 3].map(leaves_set).to_vec(),
            orders: vec![Order::new(2, 3)],
            ..plan()
        };
        assert_eq!(left.plan, want);
        // The optional group stays without a child.
        let left = Remaining::new(&plan(), &[1, 4]).ok().unwrap();
        assert_eq!(left.numbers, [0, 2]);
        assert_eq!(
            left.plan.nodes,
            [node(NO_PARENT, ANY_OF), node(0, OPTIONAL)]
        );
        assert_eq!(left.plan.orders, []);
        let left = Remaining::new(&plan(), &[]).ok().unwrap();
        assert!(left.absent().is_empty() && left.plan == plan());
    }

    #[test]
    fn refused_lists() {
        let refusal = |blocked: &[usize]| Remaining::new(&plan(), blocked).err();
        for blocked in [&[][..], &[1], &[2], &[4], &[1, 4], &[2, 4]] {
            assert_eq!(refusal(blocked), None, "{blocked:?}");
        }
        for blocked in [&[0][..], &[3], &[5], &[6], &[4, 4], &[4, 1], &[1, 2, 6]] {
            assert_eq!(refusal(blocked), Some(28), "{blocked:?}");
        }
        for blocked in [&[1, 2][..], &[1, 2, 4]] {
            assert_eq!(refusal(blocked), Some(29), "{blocked:?}");
        }
    }
}
