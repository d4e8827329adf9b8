//! Two faults at once: the lower number wins.

use std::collections::BTreeSet;

use reference::model::format::{
    Condition, Order, Plan, ALL_OF, ANY_OF, CLEAR, INCONDITION, NO_PARENT, OPTIONAL, PRECONDITION,
    SET,
};
use reference::model::rules::causes;

use crate::tally::Tally;
use Damage::{Bytes, Fields};

/// A refusal's number, and what brings its cause about.
type Fault = (u32, Damage);

enum Damage {
    Fields(fn(&mut Plan)),
    Bytes(fn(&mut Vec<u8>)),
}

/// A valid plan with room for all faults, each at a place of its own.
fn sound() -> Plan {
    Plan::new(8)
        .all_of(b"ROOT", NO_PARENT)
        .task(b"TSK1", 0, 1)
        .task(b"TSK2", 0, 2)
        .all_of(b"ALL3", 0)
        .task(b"TSK4", 3, 4)
        .pre(0, CLEAR)
        .task(b"TSK5", 3, 5)
        .post(1, SET)
        .any_of(b"ANY6", 0)
        .task(b"TSK7", 6, 7)
        .pre(2, CLEAR)
        .pre(3, CLEAR)
        .task(b"TSK8", 6, 8)
        .task(b"TSK9", 0, 9)
        .task(b"TSKA", 0, 0)
        .task(b"TSKB", 0, 11)
        .pre(7, SET)
        .order(1, 2)
        .order(1, 3)
        .order(4, 5)
}

/// Ways to meet each refusal.
const FAULTS: [Fault; 41] = [
    (1, Bytes(|b| b.truncate(15))),
    (2, Fields(|p| p.flags = 0)),
    (2, Fields(|p| p.flags = 65)),
    (2, Fields(|p| p.nodes.resize(129, p.nodes[1]))),
    (2, Fields(|p| p.conditions.resize(1025, p.conditions[0]))),
    (2, Fields(|p| p.orders.resize(513, p.orders[0]))),
    (3, Bytes(|b| b.push(0))),
    (3, Bytes(|b| b.truncate(b.len() - 1))),
    (4, Fields(|p| p.set_at_start(8))),
    (4, Fields(|p| p.set_at_start(63))),
    (5, Fields(|p| p.nodes[0].name[0] = b'a')),
    (5, Fields(|p| p.nodes[11].name[3] = 0)),
    (6, Fields(|p| p.nodes[2].kind = 4)),
    (6, Fields(|p| p.nodes[2].minutes = 10_081)),
    (6, Fields(|p| p.nodes[3].minutes = 1)),
    (7, Fields(|p| p.nodes[0].parent = 0)),
    (7, Fields(|p| p.nodes[9].parent = 9)),
    (7, Fields(|p| p.nodes[9].parent = 1)),
    (7, Fields(|p| p.nodes[9].parent = 255)),
    (8, Fields(|p| p.nodes[10].kind = ALL_OF)),
    (8, Fields(|p| p.nodes[10].kind = ANY_OF)),
    (8, Fields(|p| p.nodes[10].kind = OPTIONAL)),
    (9, Fields(|p| condition(p, 12, 0))),
    (9, Fields(|p| condition(p, 0, 0))),
    (9, Fields(|p| condition(p, 11, 384))),
    (9, Fields(|p| condition(p, 8, 8))),
    (10, Fields(swap_conditions)),
    (10, Fields(|p| p.conditions.insert(0, p.conditions[0]))),
    (11, Fields(|p| condition(p, 4, pre(0, SET)))),
    (11, Fields(|p| condition(p, 11, pre(7, CLEAR)))),
    (12, Fields(|p| condition(p, 5, inc(0, SET)))),
    (12, Fields(|p| condition(p, 8, inc(1, SET)))),
    (13, Fields(|p| order(p, 7, 8))),
    (13, Fields(|p| order(p, 2, 4))),
    (13, Fields(|p| order(p, 3, 3))),
    (13, Fields(|p| order(p, 5, 4))),
    (13, Fields(|p| order(p, 0, 1))),
    (13, Fields(|p| order(p, 11, 200))),
    (14, Fields(|p| p.orders.swap(0, 1))),
    (14, Fields(|p| p.orders.swap(0, 2))),
    (14, Fields(|p| p.orders.insert(0, p.orders[0]))),
];

/// The value of a precondition.
fn pre(flag: u16, sign: u16) -> u16 {
    Condition::new(0, PRECONDITION, flag, sign).value
}

/// The value of an incondition.
fn inc(flag: u16, sign: u16) -> u16 {
    Condition::new(0, INCONDITION, flag, sign).value
}

/// Puts a condition in, after those that are lower.
fn condition(plan: &mut Plan, node: u8, value: u16) {
    let lower = |c: &&Condition| (c.node, c.value) < (node, value);
    let at = plan.conditions.iter().filter(lower).count();
    plan.conditions.insert(at, Condition { node, value });
}

/// The two conditions of task 7.
fn swap_conditions(plan: &mut Plan) {
    let at = plan.conditions.iter().position(|c| c.node == 7).unwrap();
    plan.conditions.swap(at, at + 1);
}

/// Puts an order in, after those that are lower.
fn order(plan: &mut Plan, earlier: u8, later: u8) {
    let lower = |o: &&Order| (o.earlier, o.later) < (earlier, later);
    let at = plan.orders.iter().filter(lower).count();
    plan.orders.insert(at, Order::new(earlier, later));
}

/// The sound plan with these faults, if they leave a cause of each refusal from 4 on.
fn damaged(faults: &[&Fault]) -> Option<Vec<u8>> {
    let mut plan = sound();
    for (_, damage) in faults {
        if let Fields(change) = damage {
            change(&mut plan);
        }
    }
    let found = causes(&plan);
    if faults.iter().any(|(n, _)| *n >= 4 && !found.contains(n)) {
        return None;
    }
    let mut bytes = plan.bytes();
    for (_, damage) in faults {
        if let Bytes(change) = damage {
            change(&mut bytes);
        }
    }
    Some(bytes)
}

/// Each fault alone, and each two faults of different rules that can stand together.
pub fn pairs(tally: &mut Tally) {
    tally.expect(&sound().bytes(), 0);
    let mut met = BTreeSet::new();
    for first in &FAULTS {
        tally.expect(&damaged(&[first]).unwrap(), first.0);
        for second in FAULTS.iter().filter(|second| first.0 < second.0) {
            // Under 16 bytes there are no names and nothing that comes after them.
            if first.0 == 1 && second.0 >= 5 {
                continue;
            }
            if let Some(bytes) = damaged(&[second, first]) {
                tally.expect(&bytes, first.0);
                met.insert((first.0, second.0));
            }
        }
    }
    for low in 1..=14 {
        for high in low + 1..=14 {
            assert!(
                low == 1 && high >= 5 || met.contains(&(low, high)),
                "{low}, {high}"
            );
        }
    }
}
