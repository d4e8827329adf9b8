//! Members of an all-of root (02, 111: which of its children are aboard), and the calls that include
//! one and exclude one.
//!
//! 02 reads the other children's subtrees, and every order that names them, as absent. Here they are
//! taken out: what is left is a plan of its own, in which the nodes have other numbers. Without a
//! member it is a root without children. 02 says that it is CLEAR, and 01's definitions say the same:
//! its only execution is the empty one, which completes it.

use crate::model::format::Plan;
use crate::model::verdict::Verdict;

/// A call on a list of members.
#[derive(Clone, Copy, Debug, PartialEq, Eq)]
pub enum Change {
    /// 02: brings this child aboard.
    Include(usize),
    /// 02: takes it off.
    Exclude(usize),
}

impl Change {
    /// Both calls with this number, which may be any.
    pub fn each(number: usize) -> [Change; 2] {
        [Change::Include(number), Change::Exclude(number)]
    }

    pub fn node(self) -> usize {
        match self {
            Change::Include(node) | Change::Exclude(node) => node,
        }
    }

    /// The byte that it gives the child.
    pub fn byte(self) -> u8 {
        match self {
            Change::Include(_) => 1,
            Change::Exclude(_) => 0,
        }
    }
}

/// The members that a list names, or refusal 15 or 16. Bytes after the first N are not looked at.
pub fn read(plan: &Plan, list: &[u8]) -> Result<Vec<usize>, u32> {
    let bytes = list.get(..plan.nodes.len()).ok_or(15_u32)?;
    let is_right = |(node, &byte): (usize, &u8)| match byte {
        0 => true,
        1 => is_child(plan, node),
        _ => false,
    };
    if !bytes.iter().enumerate().all(is_right) {
        return Err(16);
    }
    let nodes = 0..bytes.len();
    Ok(nodes.filter(|&node| bytes[node] == 1).collect())
}

/// Whether it is a child of the root, of whatever kind that is.
fn is_child(plan: &Plan, node: usize) -> bool {
    plan.parent(node) == Some(0)
}

/// The plan of these members: the root, and what is under a member, numbered anew in their order.
pub fn plan_of(plan: &Plan, members: &[usize]) -> Plan {
    let stands = |&node: &usize| {
        let mut upwards = plan.upwards(node);
        node == 0 || upwards.any(|above| members.contains(&above))
    };
    let nodes = 0..plan.nodes.len();
    plan.numbered(&nodes.filter(stands).collect::<Vec<_>>())
}

/// The call on an accepted plan: writes the child's byte and answers the verdict on the plan of the
/// members that there are then, or meets a refusal.
pub fn change(
    plan: &Plan,
    verdict: impl FnOnce(&Plan) -> Verdict,
    change: Change,
    list: &mut [u8],
) -> Result<Verdict, u32> {
    read(plan, list)?;
    let node = change.node();
    if node >= plan.nodes.len() {
        return Err(17);
    }
    if !plan.is_all_of(0) || !is_child(plan, node) {
        return Err(31);
    }
    if list[node] == change.byte() {
        return Err(32);
    }
    list[node] = change.byte();
    let members = read(plan, list)?;
    Ok(verdict(&plan_of(plan, &members)))
}

#[cfg(test)]
mod tests {
    use super::*;
    use crate::model::format::{
        node, Condition, Node, Order, ALL_OF, ANY_OF, NO_PARENT, POSTCONDITION, SET, TASK,
    };
    use crate::model::marks::{marks, Marks};
    use crate::model::runs;
    use crate::model::verdict::verdict;

    /// A task, a group in which one task is before another, and a task, each before the next.
    fn plan() -> Plan {
        Plan {
            flags: 1,
            start: [0; 8],
            nodes: vec![
                node(NO_PARENT, ALL_OF),
                node(0, TASK),
                node(0, ALL_OF),
                node(2, TASK),
                node(0, TASK),
                node(2, TASK),
            ],
            conditions: [1, 3, 4, 5].map(leaves_set).to_vec(),
            orders: [[1, 2], [2, 4], [3, 5]].map(in_order).to_vec(),
        }
    }

    fn leaves_set(task: u8) -> Condition {
        Condition::new(task, POSTCONDITION, 0, SET)
    }

    fn in_order([earlier, later]: [u8; 2]) -> Order {
        Order::new(earlier, later)
    }

    /// Of what is left: the nodes, the tasks with a condition, the orders.
    #[track_caller]
    fn check(members: &[usize], nodes: &[Node], tasks: &[u8], orders: &[[u8; 2]]) {
        let want = Plan {
            nodes: [&[node(NO_PARENT, ALL_OF)], nodes].concat(),
            conditions: tasks.iter().copied().map(leaves_set).collect(),
            orders: orders.iter().copied().map(in_order).collect(),
            ..plan()
        };
        assert_eq!(plan_of(&plan(), members), want);
    }

    #[test]
    fn numbered_anew() {
        assert_eq!(plan_of(&plan(), &[1, 2, 4]), plan());
        let task = node(0, TASK);
        // An order through an absent child ties nobody.
        check(&[1, 4], &[task; 2], &[1, 2], &[]);
        let group = [node(0, ALL_OF), node(1, TASK)];
        check(&[2], &[group[0], group[1], group[1]], &[2, 3], &[[2, 3]]);
        check(
            &[2, 4],
            &[group[0], group[1], task, group[1]],
            &[2, 3, 4],
            &[[1, 3], [2, 4]],
        );
        check(&[], &[], &[], &[]);
    }

    /// By rules and by runs a root without children has no mark, so that it is CLEAR.
    #[test]
    fn nobody() {
        let mut alone = plan_of(&plan(), &[]);
        for start in [0, 1] {
            alone.start[0] = start;
            for marks in [marks(&alone), runs::marks(&alone)] {
                assert_eq!(marks, [[Marks::NONE; 2]]);
            }
            assert_eq!(verdict(&alone), Verdict::Clear);
        }
    }

    #[test]
    fn lists() {
        let read = |list: &[u8]| read(&plan(), list);
        assert_eq!(read(&[0, 1, 0, 0, 1, 0]), Ok(vec![1, 4]));
        assert_eq!(read(&[0, 0, 0, 0, 0, 0, 7]), Ok(vec![]));
        assert_eq!(read(&[0, 1, 0, 0, 2]), Err(15));
        for wrong in [[1, 0, 0, 0, 0, 0], [0, 0, 0, 1, 0, 0], [0, 2, 0, 0, 0, 0]] {
            assert_eq!(read(&wrong), Err(16), "{wrong:?}");
        }
    }

    /// The first refusal that applies, with what is lent left as it was; or one byte written.
    #[test]
    fn calls() {
        let choice = Plan {
            nodes: vec![node(NO_PARENT, ANY_OF), node(0, TASK)],
            conditions: Vec::new(),
            orders: Vec::new(),
            ..plan()
        };
        for (plan, number, list, included, excluded) in [
            (plan(), 1, &[0, 0, 0, 0, 0, 0, 9][..], Ok(1), Err(32)),
            (plan(), 2, &[0, 1, 1, 0, 0, 0], Err(32), Ok(0)),
            (plan(), 0, &[0; 6], Err(31), Err(31)),
            (plan(), 3, &[0; 6], Err(31), Err(31)),
            (plan(), 6, &[0; 7], Err(17), Err(17)),
            (plan(), 6, &[3; 6], Err(16), Err(16)),
            (plan(), 6, &[3; 5], Err(15), Err(15)),
            (choice.clone(), 1, &[0, 1], Err(31), Err(31)),
            (choice, 2, &[0, 1], Err(17), Err(17)),
        ] {
            for (call, want) in Change::each(number).into_iter().zip([included, excluded]) {
                let (mut lent, mut after) = (list.to_vec(), list.to_vec());
                let found = change(&plan, verdict, call, &mut lent);
                if let Ok(byte) = want {
                    after[number] = byte;
                }
                assert_eq!(found.err(), want.err(), "{call:?} of {list:?}");
                assert_eq!(lent, after, "{call:?} of {list:?}");
            }
        }
    }
}
