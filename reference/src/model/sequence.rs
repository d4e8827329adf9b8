//! Sequences of the root's children (02, 101: a serial order), with refusals 23 and 24, and which
//! of them is answered (109).

use crate::model::format::{Order, Plan};
use crate::model::marks::marks;
use crate::model::rules::accept;
use crate::model::verdict::is_clear;

/// So many children the root may have.
pub const MOST_CHILDREN: usize = 7;

/// What the call is to return on these bytes: the first of refusals 1 to 14, 23 and 24 that
/// applies, or else the word of the sequence.
pub fn answer(bytes: &[u8]) -> u64 {
    match accept(bytes).and_then(|plan| sequence(&plan)) {
        Ok(sequence) => word(&sequence),
        Err(number) => u64::from(number),
    }
}

/// The first admitted sequence in dictionary order of node numbers, or refusal 23 or 24.
pub fn sequence(plan: &Plan) -> Result<Vec<usize>, u32> {
    let children = children(plan)?;
    if some_child_clobbers(plan, &children) {
        return Err(24);
    }
    let mut all = in_dictionary_order(&children).into_iter();
    all.find(|list| admits(plan, list)).ok_or(24)
}

/// Whether this arrangement of the root's children meets 101's conditions: it agrees with the
/// plan's orders, and the plan is CLEAR under it.
pub fn admits(plan: &Plan, list: &[usize]) -> bool {
    agrees(plan, list) && is_clear(&under(plan, list))
}

/// The root's children, or 23: the root is not an all-of group or has more than seven.
pub fn children(plan: &Plan) -> Result<Vec<usize>, u32> {
    let children: Vec<usize> = plan.children(0).collect();
    if !plan.is_all_of(0) || children.len() > MOST_CHILDREN {
        return Err(23);
    }
    Ok(children)
}

/// By 01 a group may clobber what a child may clobber, whatever the orders between its children
/// are: then no sequence is CLEAR, and none has to be tried.
fn some_child_clobbers(plan: &Plan, children: &[usize]) -> bool {
    let marks = marks(plan);
    let clobbers = |&child: &usize| marks[child].iter().any(|entry| entry.may_clobber);
    children.iter().any(clobbers)
}

/// Every list that has each of these nodes once. Of two lists the one precedes that has the lower
/// number at the first place where they differ, as Rust compares lists.
pub fn in_dictionary_order(nodes: &[usize]) -> Vec<Vec<usize>> {
    let mut lists: Vec<Vec<usize>> = arrangements(nodes).collect();
    lists.sort();
    lists
}

/// The same lists, in no order that matters.
fn arrangements(nodes: &[usize]) -> impl Iterator<Item = Vec<usize>> + '_ {
    let count: usize = (1..=nodes.len()).product();
    // The digits of a number, to falling bases, say which of the nodes left comes next.
    (0..count).map(|mut number| {
        let mut left = nodes.to_vec();
        let next = |base| {
            let digit = number % base;
            number /= base;
            left.remove(digit)
        };
        (1..=nodes.len()).rev().map(next).collect()
    })
}

/// Whether the earlier node of each of the plan's orders between two of these nodes comes first.
pub fn agrees(plan: &Plan, list: &[usize]) -> bool {
    let place = |node: u8| list.iter().position(|&other| other == usize::from(node));
    plan.orders.iter().all(|order| {
        let places = place(order.earlier).zip(place(order.later));
        places.is_none_or(|(earlier, later)| earlier < later)
    })
}

/// The plan with the orders of the list, in which each node is wholly before the next. They may
/// fall in number, and be more than a plan may have.
pub fn under(plan: &Plan, list: &[usize]) -> Plan {
    let numbers: Vec<u8> = list.iter().map(|&node| node as u8).collect();
    let orders = numbers.windows(2).map(|pair| Order::new(pair[0], pair[1]));
    let mut ordered = plan.clone();
    ordered.orders.extend(orders);
    ordered
}

/// The word of a sequence: the nodes from the lowest byte on, and in the highest their count.
pub fn word(sequence: &[usize]) -> u64 {
    let count = sequence.len() as u64;
    let nodes = (0..)
        .zip(sequence)
        .map(|(place, &node)| (node as u64) << (8 * place));
    (count << 56) + nodes.sum::<u64>()
}

/// The nodes of a word, if it is that of a list.
pub fn read(word: u64) -> Option<Vec<usize>> {
    let [nodes @ .., count] = word.to_le_bytes();
    let (nodes, unused) = nodes.split_at_checked(usize::from(count))?;
    let nodes = nodes.iter().map(|&node| usize::from(node)).collect();
    unused.iter().all(|&byte| byte == 0).then_some(nodes)
}

#[cfg(test)]
mod tests {
    use super::*;
    use crate::model::format::{
        node, Condition, ALL_OF, CLEAR, NO_PARENT, POSTCONDITION, PRECONDITION, SET, TASK,
    };
    use crate::model::verdict::{verdict, Verdict};
    use std::collections::HashSet;

    #[test]
    fn arrangements_of_few() {
        let of = |nodes: &[usize]| arrangements(nodes).collect::<HashSet<_>>();
        assert_eq!(of(&[4]), HashSet::from([vec![4]]));
        let three = [
            [1, 2, 5],
            [1, 5, 2],
            [2, 1, 5],
            [2, 5, 1],
            [5, 1, 2],
            [5, 2, 1],
        ];
        assert_eq!(of(&[1, 2, 5]), three.map(Vec::from).into());
        assert_eq!(of(&[1, 2, 3, 4, 5, 6, 7]).len(), 5_040);
    }

    /// Numbers are compared, not their digits.
    #[test]
    fn dictionary_order() {
        let of_three = [
            [2, 10, 127],
            [2, 127, 10],
            [10, 2, 127],
            [10, 127, 2],
            [127, 2, 10],
            [127, 10, 2],
        ];
        assert_eq!(in_dictionary_order(&[2, 10, 127]), of_three);
        assert_eq!(in_dictionary_order(&[127, 10, 2]), of_three);
        let seven = in_dictionary_order(&[1, 2, 3, 4, 5, 6, 7]);
        let precedes = |one: &Vec<usize>, other: &Vec<usize>| {
            let mut places = one.iter().zip(other);
            places.find(|(a, b)| a != b).is_some_and(|(a, b)| a < b)
        };
        assert!(seven.len() == 5_040 && seven.is_sorted_by(precedes));
    }

    /// Four tasks, each of which needs the flag clear, or set, or not, and leaves it clear, or set,
    /// or not: digits of a number to base 9.
    fn four_tasks(mut number: usize) -> Plan {
        let mut conditions = Vec::new();
        for task in 1..=4 {
            let (needs, leaves) = (number % 3, number / 3 % 3);
            for (place, sign) in [(PRECONDITION, needs), (POSTCONDITION, leaves)] {
                let signs = [None, Some(CLEAR), Some(SET)][sign].into_iter();
                conditions.extend(signs.map(|sign| Condition::new(task, place, 0, sign)));
            }
            number /= 9;
        }
        let nodes = [node(NO_PARENT, ALL_OF)].into_iter();
        Plan {
            flags: 1,
            start: [0; 8],
            nodes: nodes.chain([node(0, TASK); 4]).collect(),
            conditions,
            orders: vec![Order::new(2, 4)],
        }
    }

    /// Of all arrangements that agree and are CLEAR the least is answered.
    #[test]
    fn least_of_all() {
        let mut several = 0;
        for number in 0..9_usize.pow(4) {
            let plan = four_tasks(number);
            let clear: Vec<Vec<usize>> = arrangements(&[1, 2, 3, 4])
                .filter(|list| agrees(&plan, list))
                .filter(|list| verdict(&under(&plan, list)) == Verdict::Clear)
                .collect();
            let least = clear.iter().min().cloned();
            assert_eq!(sequence(&plan), least.ok_or(24), "{plan:?}");
            several += usize::from(clear.len() > 1);
        }
        assert!(several > 1_000, "{several}");
    }

    #[test]
    fn words() {
        let rows: [(&[usize], u64); 4] = [
            (&[1], 0x0100_0000_0000_0001),
            (&[2, 1], 0x0200_0000_0000_0102),
            (&[127, 3, 90], 0x0300_0000_005a_037f),
            (&[7, 6, 5, 4, 3, 2, 1], 0x0701_0203_0405_0607),
        ];
        for (sequence, packed) in rows {
            assert_eq!(word(sequence), packed);
            assert_eq!(read(packed).as_deref(), Some(sequence));
        }
        // A byte that is not used, or eight nodes.
        assert_eq!(read(0x0200_0000_0005_0102), None);
        assert_eq!(read(0x0801_0203_0405_0607), None);
        // A refusal is the word of no list.
        assert_eq!(read(24), None);
    }
}
