//! Other merged plans.

use reference::model::format::{Condition, Node, Order, Plan, Sizes, ANY_OF, NO_PARENT};
use reference::tools::generate::any_plan;
use reference::tools::generate::pairs::{agree, partner};
use reference::tools::random::Random;
use reference::tools::scenario::merged::Pair;
use reference::tools::scenario::tally::Tally;

use super::super::merged;
use super::Others;

/// The merged plan, each part that of the first plan and then that of the second.
fn right(plans: &[Plan; 2]) -> Plan {
    let [first, second] = plans;
    let mut all = Plan::new(first.flags.max(second.flags)).all_of(b"HULL", NO_PARENT);
    for (at, byte) in all.start.iter_mut().enumerate() {
        *byte = first.start[at] | second.start[at];
    }
    for (plan, shift) in [(first, 1), (second, 1 + first.nodes.len() as u8)] {
        for node in &plan.nodes {
            let parent = node.parent.checked_add(shift).unwrap_or(0);
            all = all.node(&node.name, parent, node.kind, node.minutes);
        }
        let shifted = |own: &Condition| Condition {
            node: own.node + shift,
            ..*own
        };
        all.conditions.extend(plan.conditions.iter().map(shifted));
        let shifted = |own: &Order| Order::new(own.earlier + shift, own.later + shift);
        all.orders.extend(plan.orders.iter().map(shifted));
    }
    all
}

/// Makes the right plan another one.
type Wrong = fn(&[Plan; 2], &mut Plan);

const NODES: [(&str, Wrong); 13] = [
    ("the second plan first", |[first, second], all| {
        *all = right(&[second.clone(), first.clone()]);
    }),
    ("names of the second first", |[first, _], all| {
        let mut names: Vec<[u8; 4]> = all.nodes.iter().map(|node| node.name).collect();
        names[1..].rotate_left(first.nodes.len());
        for (node, name) in all.nodes.iter_mut().zip(names) {
            node.name = name;
        }
    }),
    ("a root of any name", |[first, _], all| {
        all.nodes[0].name = first.nodes[0].name;
    }),
    ("an any-of root", |_, all| all.nodes[0].kind = ANY_OF),
    ("the root last", |[first, second], all| {
        all.nodes.rotate_left(1);
        let root = first.nodes.len() + second.nodes.len();
        for node in &mut all.nodes[..root] {
            node.parent = node.parent.checked_sub(1).unwrap_or(root as u8);
        }
        all.conditions.iter_mut().for_each(|own| own.node -= 1);
        for own in &mut all.orders {
            *own = Order::new(own.earlier - 1, own.later - 1);
        }
    }),
    ("old roots keep their parent", |plans, all| {
        for root in roots(plans) {
            all.nodes[root].parent = NO_PARENT;
        }
    }),
    ("the second root under the first", |plans, all| {
        all.nodes[roots(plans)[1]].parent = 1;
    }),
    ("without the old roots", |plans, all| {
        for root in roots(plans) {
            for node in &mut all.nodes {
                if usize::from(node.parent) == root {
                    node.parent = 0;
                }
            }
        }
        let is_task = |node: usize| all.nodes[node].kind == 0;
        let left = |node: &usize| is_task(*node) || !roots(plans).contains(node);
        let left: Vec<usize> = (0..all.nodes.len()).filter(left).collect();
        *all = all.numbered(&left);
    }),
    ("parents shifted as if without a root", |plans, all| {
        for node in of_second(plans, all) {
            node.parent = node.parent.saturating_sub(1);
        }
    }),
    ("parents of the second not shifted", |plans, all| {
        let shift = roots(plans)[1] as u8;
        for node in of_second(plans, all) {
            node.parent = node.parent.saturating_sub(shift);
        }
    }),
    ("parents of the first not shifted", |[first, _], all| {
        for node in &mut all.nodes[1..=first.nodes.len()] {
            node.parent = node.parent.saturating_sub(1);
        }
    }),
    ("minutes of the first alone", |plans, all| {
        for node in of_second(plans, all) {
            node.minutes = 0;
        }
    }),
    ("minutes of one byte", |_, all| {
        for node in &mut all.nodes {
            node.minutes %= 256;
        }
    }),
];

const CONDITIONS: [(&str, Wrong); 7] = [
    ("the second's conditions first", |[first, _], all| {
        all.conditions.rotate_left(first.conditions.len());
    }),
    ("conditions by their values", |_, all| {
        all.conditions.sort_by_key(|own| (own.value, own.node));
    }),
    ("the second's conditions not shifted", |plans, all| {
        shift_conditions(plans, all, roots(plans)[1]);
    }),
    ("conditions shifted as if without a root", |plans, all| {
        shift_conditions(plans, all, 1);
    }),
    ("the first's conditions not shifted", |[first, _], all| {
        for own in &mut all.conditions[..first.conditions.len()] {
            own.node -= 1;
        }
    }),
    (
        "flags of the second after the first's",
        |[first, _], all| {
            for own in &mut all.conditions[first.conditions.len()..] {
                own.value = own.value - own.flag() + (own.flag() + first.flags) % 64;
            }
        },
    ),
    ("values of one byte", |_, all| {
        for own in &mut all.conditions {
            own.value %= 256;
        }
    }),
];

const ORDERS: [(&str, Wrong); 6] = [
    ("the second's orders first", |[first, _], all| {
        all.orders.rotate_left(first.orders.len());
    }),
    ("orders by their later nodes", |_, all| {
        all.orders.sort_by_key(|own| (own.later, own.earlier));
    }),
    ("the second's orders not shifted", |plans, all| {
        shift_orders(plans, all, roots(plans)[1]);
    }),
    ("orders shifted as if without a root", |plans, all| {
        shift_orders(plans, all, 1);
    }),
    ("later nodes not shifted", |plans, all| {
        for own in &mut all.orders[plans[0].orders.len()..] {
            own.later -= roots(plans)[1] as u8;
        }
    }),
    ("the first plan before the second", |plans, all| {
        let [one, other] = roots(plans).map(|root| root as u8);
        all.orders.insert(0, Order::new(one, other));
    }),
];

const FLAGS: [(&str, Wrong); 7] = [
    ("V of the first", |[first, _], all| all.flags = first.flags),
    ("V of the second", |[_, second], all| {
        all.flags = second.flags;
    }),
    ("the smaller V", |[first, second], all| {
        all.flags = first.flags.min(second.flags);
    }),
    ("V of both together", |[first, second], all| {
        all.flags = first.flags + second.flags;
    }),
    ("start flags of the first", |[first, _], all| {
        all.start = first.start;
    }),
    ("start flags of the second", |[_, second], all| {
        all.start = second.start;
    }),
    ("start flags of the smaller V", |[first, second], all| {
        for (at, byte) in all.start.iter_mut().enumerate() {
            *byte = first.start[at] & second.start[at];
        }
    }),
];

/// Where the two roots are.
fn roots([first, _]: &[Plan; 2]) -> [usize; 2] {
    [1, 1 + first.nodes.len()]
}

/// The nodes of the second plan.
fn of_second<'a>(plans: &[Plan; 2], all: &'a mut Plan) -> &'a mut [Node] {
    &mut all.nodes[roots(plans)[1]..]
}

/// Conditions of the second plan at nodes so much lower.
fn shift_conditions([first, _]: &[Plan; 2], all: &mut Plan, less: usize) {
    for own in &mut all.conditions[first.conditions.len()..] {
        own.node -= less as u8;
    }
}

/// Orders of the second plan between nodes so much lower.
fn shift_orders([first, _]: &[Plan; 2], all: &mut Plan, less: usize) {
    for own in &mut all.orders[first.orders.len()..] {
        *own = Order::new(own.earlier - less as u8, own.later - less as u8);
    }
}

pub fn told_apart(tally: &mut Tally) {
    let mut random = Random::new(274);
    let some = Sizes {
        nodes: 12,
        conditions: 30,
        orders: 10,
        flags: 64,
    };
    let wrong: Vec<(&str, Wrong)> = [&NODES[..], &CONDITIONS, &ORDERS, &FLAGS].concat();
    let mut others = Others::default();
    for _ in 0..1_000 {
        let first = any_plan(&mut random, some);
        let mut second = partner(&mut random, &first);
        agree(&first, &mut second);
        let plans = [first, second];
        let pair = Pair::of(&plans);
        if pair.merged().is_err() {
            continue;
        }
        let bytes = merged(tally, &mut random, &pair);
        assert_eq!(right(&plans).bytes(), bytes);
        for &(name, wrong) in &wrong {
            let mut plan = right(&plans);
            wrong(&plans, &mut plan);
            others.count(name, plan.bytes() != bytes);
        }
    }
    others.assert("merged plans", wrong.len(), 100);
}
