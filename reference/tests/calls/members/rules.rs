//! How often another rule about members would return something else.

use std::collections::BTreeMap;

use reference::model::calls::code_of_verdict;
use reference::model::format::{Condition, Order, Plan};
use reference::model::members::{plan_of, Change};
use reference::model::verdict::verdict;
use reference::tools::random::Random;
use reference::tools::scenario::members::{children, small_plan, Turn};
use reference::tools::scenario::tally::Tally;

use super::replayed;
use crate::blocked::promises::{CLEAR, DOOMED, OPEN};

/// What a wrong rule would return for an accepted call.
type Rule = fn(&Plan, &Turn) -> u32;

const RULES: [(&str, Rule); 13] = [
    ("an absent child ties its neighbours", |plan, turn| {
        code(&plan_of(&chained(plan), &turn.after))
    }),
    ("orders between members are absent", |plan, turn| {
        code(&plan_of(&untied(plan), &turn.after))
    }),
    ("what is under an absent child stays", |plan, turn| {
        code(&handed_up(plan, &turn.after))
    }),
    ("what is under a member is absent", |plan, turn| {
        code(&plan_of(&childless(plan), &turn.after))
    }),
    ("of the members before the call", |plan, turn| {
        code(&plan_of(plan, &turn.before))
    }),
    ("of the whole plan", |plan, _| code(plan)),
    ("of the child alone", |plan, turn| {
        code(&plan_of(plan, &[turn.call.node()]))
    }),
    ("of those who are no members", |plan, turn| {
        let mut others = children(plan);
        others.retain(|child| !turn.after.contains(child));
        code(&plan_of(plan, &others))
    }),
    ("CLEAR is kept when one goes", |plan, turn| {
        kept(plan, turn, Change::Exclude, CLEAR)
    }),
    ("OPEN is kept when one comes", |plan, turn| {
        kept(plan, turn, Change::Include, OPEN)
    }),
    ("DOOMED is kept when one comes", |plan, turn| {
        kept(plan, turn, Change::Include, DOOMED)
    }),
    ("a root without children is refused", |_, turn| {
        if turn.after.is_empty() {
            8
        } else {
            turn.returned
        }
    }),
    ("bytes after the list are tried", |_, turn| {
        let zeros = turn.later.iter().all(|&byte| byte == 0);
        if zeros {
            turn.returned
        } else {
            16
        }
    }),
];

fn code(plan: &Plan) -> u32 {
    code_of_verdict(verdict(plan))
}

/// What was returned, but that this kind of call keeps this verdict.
fn kept(plan: &Plan, turn: &Turn, kind: fn(usize) -> Change, word: u32) -> u32 {
    let is_kind = turn.call == kind(turn.call.node());
    if is_kind && code(&plan_of(plan, &turn.before)) == word {
        return word;
    }
    turn.returned
}

/// The plan with an order for each chain of orders.
fn chained(plan: &Plan) -> Plan {
    let mut plan = plan.clone();
    let mut at = 0;
    while at < plan.orders.len() {
        let Order { earlier, later } = plan.orders[at];
        let next = plan.orders.iter().filter(|order| order.earlier == later);
        let further: Vec<Order> = next.map(|order| Order::new(earlier, order.later)).collect();
        let known = |order: &Order| plan.orders.contains(order);
        let new: Vec<Order> = further.into_iter().filter(|order| !known(order)).collect();
        plan.orders.extend(new);
        at += 1;
    }
    plan
}

/// The plan without orders between the root's children.
fn untied(plan: &Plan) -> Plan {
    let mut plan = plan.clone();
    let below = |order: &Order| plan.nodes[usize::from(order.earlier)].parent != 0;
    plan.orders.retain(below);
    plan
}

/// The plan in which the children of absent ones are the root's.
fn handed_up(plan: &Plan, members: &[usize]) -> Plan {
    let absent = |node: usize| plan.parent(node) == Some(0) && !members.contains(&node);
    let mut handed_up = plan.clone();
    for node in 1..plan.nodes.len() {
        if absent(usize::from(plan.nodes[node].parent)) {
            handed_up.nodes[node].parent = 0;
        }
    }
    let nodes = 0..plan.nodes.len();
    let left: Vec<usize> = nodes.filter(|&node| !absent(node)).collect();
    handed_up.numbered(&left)
}

/// The plan without conditions of tasks that are not the root's children.
fn childless(plan: &Plan) -> Plan {
    let mut plan = plan.clone();
    let of_child = |condition: &Condition| plan.nodes[usize::from(condition.node)].parent == 0;
    plan.conditions.retain(of_child);
    plan
}

pub fn told_apart(tally: &mut Tally) {
    let mut random = Random::new(227);
    let mut others = BTreeMap::new();
    let nodes = (3..=10).flat_map(|nodes| [nodes; 120]);
    for nodes in nodes {
        let plan = small_plan(&mut random, nodes);
        let turns = replayed(tally, &mut random, &plan, 2 * nodes);
        for turn in &turns {
            for (name, rule) in RULES {
                let is_other = rule(&plan, turn) != turn.returned;
                *others.entry(name).or_default() += usize::from(is_other);
            }
        }
    }
    println!("members, by other rules: {others:?}");
    let least = others.values().min();
    assert!(others.len() == RULES.len() && least.is_some_and(|&least: &usize| least >= 40));
}
