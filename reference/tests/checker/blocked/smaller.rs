//! A plan with blocked nodes against the smaller plan that is left when these are taken out of its
//! bytes, and to which nothing is blocked.

use reference::model::blocked::Remaining;
use reference::model::calls::Call;
use reference::model::format::{Node, Plan, TASK};
use reference::model::rules::refusal;
use reference::tools::generate::clear::shaken_plan;
use reference::tools::generate::{any_plan, dense_plan, LIMITS, SHAPES};
use reference::tools::random::Random;
use reference::tools::scenario::blocked::passing;
use reference::tools::scenario::lists::{list, long_list};

use crate::{entries, entries_blocking, make, make_blocking, shown, verdict, verdict_blocking};

/// The smaller plan, and for each of its nodes the number it had.
///
/// Nodes go one by one, the highest first, so that each goes after those below it. An optional group
/// has to have a child in a plan of its own: its last one stays, as a task without conditions.
fn smaller(plan: &Plan, blocked: &[usize]) -> (Plan, Vec<Option<usize>>) {
    let mut found = plan.clone();
    let mut numbers: Vec<Option<usize>> = (0..plan.nodes.len()).map(Some).collect();
    let absent = |node| plan.upwards(node).any(|above| blocked.contains(&above));
    for node in (1..plan.nodes.len()).rev().filter(|&node| absent(node)) {
        found.conditions.retain(|c| usize::from(c.node) != node);
        let parent = usize::from(found.nodes[node].parent);
        let last = found.is_optional(parent) && found.children(parent).count() == 1;
        if last && !absent(parent) {
            found.nodes[node] = Node {
                kind: TASK,
                minutes: 0,
                ..found.nodes[node]
            };
            numbers[node] = None;
        } else {
            take_out(&mut found, node as u8);
            numbers.remove(node);
        }
    }
    assert_eq!(refusal(&found.bytes()), 0);
    (found, numbers)
}

/// Takes out a node without children and conditions; higher numbers are one less from now on.
fn take_out(plan: &mut Plan, node: u8) {
    let lowered = |number: u8| number - u8::from(number > node && number != 255);
    plan.nodes.remove(usize::from(node));
    plan.nodes
        .iter_mut()
        .for_each(|other| other.parent = lowered(other.parent));
    plan.conditions
        .iter_mut()
        .for_each(|condition| condition.node = lowered(condition.node));
    plan.orders.retain(|o| o.earlier != node && o.later != node);
    for order in &mut plan.orders {
        (order.earlier, order.later) = (lowered(order.earlier), lowered(order.later));
    }
}

/// Plans of all sizes with an accepted list each.
fn for_each_list(seed: u64, mut check: impl FnMut(&mut Random, &Plan, &[usize])) {
    let mut random = Random::new(seed);
    let mut plans: Vec<Plan> = Vec::new();
    for nodes in 2..=14 {
        plans.extend((0..200).map(|_| dense_plan(&mut random, nodes)));
    }
    for shape in SHAPES {
        plans.push(any_plan(&mut random, LIMITS));
        plans.push(shaken_plan(&mut random, LIMITS, shape));
    }
    for plan in plans {
        let blocked = passing(&mut random, &plan);
        if !blocked.is_empty() {
            check(&mut random, &plan, &blocked);
        }
    }
}

#[test]
fn summaries_and_verdicts() {
    let mut nodes = 0;
    for_each_list(191, |_, plan, blocked| {
        let (smaller, numbers) = smaller(plan, blocked);
        let (bytes, left) = (plan.bytes(), smaller.bytes());
        let found = verdict_blocking(&bytes, blocked);
        assert_eq!(found, verdict(&left), "{blocked:?} of\n{}", shown(plan));
        // Of large plans some nodes.
        let step = 1 + numbers.len() / 16;
        for (node, number) in numbers.iter().enumerate().step_by(step) {
            let Some(number) = number else { continue };
            let found = entries_blocking(&bytes, blocked, *number);
            assert_eq!(found, entries(&left, node), "{number} of\n{}", shown(plan));
            nodes += 1;
        }
    });
    println!("{nodes} nodes");
    assert!(nodes > 1_000);
}

/// The same calls by other numbers return the same, and leave the same at the nodes that are left.
#[test]
fn lists_of_calls() {
    let (mut calls, mut accepted) = (0, 0);
    for_each_list(192, |random, plan, blocked| {
        let (smaller, numbers) = smaller(plan, blocked);
        let (bytes, left) = (plan.bytes(), smaller.bytes());
        let (mut state, mut other) = (vec![7; 392], vec![7; 392]);
        assert_eq!(make_blocking(&Call::Fresh, &bytes, blocked, &mut state), 0);
        assert_eq!(make(&Call::Fresh, &left, &mut other), 0);
        let remaining = Remaining::new(plan, blocked).unwrap();
        let drawn = match random.below(2) {
            0 => long_list(random, &remaining.plan),
            _ => list(random, &remaining.plan, 30),
        };
        let drawn = drawn
            .iter()
            .filter_map(|call| both(call, &remaining.numbers, &numbers));
        for (call, by_other_numbers) in drawn.take(60) {
            let returned = make_blocking(&call, &bytes, blocked, &mut state);
            let want = make(&by_other_numbers, &left, &mut other);
            assert_eq!(returned, want, "{call:?}, {blocked:?} of\n{}", shown(plan));
            let status = make_blocking(&Call::Status, &bytes, blocked, &mut state);
            assert_eq!(status, make(&Call::Status, &left, &mut other));
            (calls, accepted) = (calls + 1, accepted + usize::from(returned == 0));
        }
        assert_eq!(flags_and_nodes(&state, plan, numbers.iter().flatten()), {
            let nodes = (0..numbers.len()).filter(|&node| numbers[node].is_some());
            flags_and_nodes(&other, &smaller, nodes.collect::<Vec<_>>().iter())
        });
    });
    println!("{calls} calls, {accepted} accepted");
    assert!(calls > 5_000 && accepted > 2_000);
}

/// A call of nodes that remain by their numbers in the whole plan, and by those in the smaller one.
fn both(call: &Call, whole: &[usize], smaller: &[Option<usize>]) -> Option<(Call, Call)> {
    let in_smaller = |number: usize| smaller.iter().position(|&at| at == Some(number));
    let pair = |at: usize| {
        let number = *whole.get(at)?;
        Some((number, in_smaller(number)?))
    };
    match call {
        Call::Event(event) => {
            let (one, other) = pair(event.node())?;
            Some((Call::Event(event.at(one)), Call::Event(event.at(other))))
        }
        Call::FinishTogether(tasks) => {
            let pairs: Option<Vec<_>> = tasks.iter().map(|&at| pair(at)).collect();
            let (one, other) = pairs?.into_iter().unzip();
            Some((Call::FinishTogether(one), Call::FinishTogether(other)))
        }
        _ => None,
    }
}

/// The flags of a state, and for each of these nodes its byte and its place.
fn flags_and_nodes<'a>(
    state: &[u8],
    plan: &Plan,
    nodes: impl Iterator<Item = &'a usize>,
) -> (Vec<u8>, Vec<[u8; 3]>) {
    let places = 8 + plan.nodes.len();
    let of_node = |&node: &usize| {
        let at = places + 2 * node;
        [state[8 + node], state[at], state[at + 1]]
    };
    (state[..8].to_vec(), nodes.map(of_node).collect())
}
