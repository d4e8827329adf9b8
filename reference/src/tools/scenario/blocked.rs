//! Lists of blocked nodes, and states and calls under them.

use super::states;
use super::together::{any_numbers, long, some_of, spoil};
use crate::model::blocked::{is_absent, is_branch, Remaining};
use crate::model::calls::Call;
use crate::model::events::Event;
use crate::model::format::Plan;
use crate::model::monitor::{put, state_len, State};
use crate::tools::random::Random;

/// The children of any-of and optional groups.
pub fn branches(plan: &Plan) -> Vec<usize> {
    let nodes = 0..plan.nodes.len();
    nodes.filter(|&node| is_branch(plan, node)).collect()
}

/// A list that is accepted: of many branches, of a few or of none.
pub fn passing(random: &mut Random, plan: &Plan) -> Vec<usize> {
    let mut blocked = some_of(random, &branches(plan));
    // From the root down: what a freed branch holds has higher numbers.
    for group in 0..plan.nodes.len() {
        let children: Vec<usize> = plan.children(group).collect();
        let left = children.iter().any(|child| !blocked.contains(child));
        if plan.is_any_of(group) && !left && !is_absent(plan, &blocked, group) {
            let freed = random.pick(&children);
            blocked.retain(|&node| node != freed);
        }
    }
    blocked
}

/// A list of any kind: mostly accepted; or with up to two things wrong, or with branches freed or
/// not kept, so that an any-of group may have none left; or of any numbers; or long.
pub fn any_blocked(random: &mut Random, plan: &Plan) -> Vec<usize> {
    match random.below(16) {
        0 => any_numbers(random, plan),
        1 => long(random, plan),
        2 | 3 => some_of(random, &branches(plan)),
        4..=6 => {
            let mut blocked = passing(random, plan);
            for _ in 0..random.within(1, 2) {
                spoil(random, plan, &mut blocked);
            }
            blocked
        }
        7 => {
            let blocked = passing(random, plan);
            some_of(random, &blocked)
        }
        _ => passing(random, plan),
    }
}

/// A state's bytes for the plan that remains, and those after them, as bytes for the whole plan: 0 at
/// absent nodes.
pub fn spread(plan: &Remaining, short: &[u8]) -> Vec<u8> {
    let mut bytes = vec![0; state_len(&plan.whole)];
    put(plan, short, &mut bytes);
    bytes.extend(&short[state_len(&plan.plan)..]);
    bytes
}

/// The bytes of a well-formed state, each time with one fault: where the plan remains any that
/// makes a state malformed; at an absent node a byte, or a place, that is not 0.
pub fn malformed(random: &mut Random, plan: &Remaining, state: &State) -> Vec<Vec<u8>> {
    let short = states::malformed(random, &plan.plan, state);
    let mut found: Vec<Vec<u8>> = short.iter().map(|short| spread(plan, short)).collect();
    let absent = plan.absent();
    if absent.is_empty() {
        return found;
    }
    let good = spread(plan, &states::bytes(random, &plan.plan, state, 2));
    let nodes = plan.whole.nodes.len();
    let next = state.places.in_order().len() as u8 + 1;
    for node in absent {
        let place = 8 + nodes + 2 * node;
        let statuses = [1, 2, 3, 255].map(|byte| (8 + node, byte));
        let places = [(place, 1), (place, next), (place + 1, 1)];
        for (at, byte) in statuses.into_iter().chain(places) {
            let mut bytes = good.clone();
            bytes[at] = byte;
            found.push(bytes);
        }
        found.push(started_at(&good, nodes, node, next));
    }
    found
}

/// The state with a task running that was the last to start, as if it were not absent.
fn started_at(good: &[u8], nodes: usize, node: usize, place: u8) -> Vec<u8> {
    let mut bytes = good.to_vec();
    bytes[8 + node] = 1;
    bytes[8 + nodes + 2 * node] = place;
    bytes
}

/// Calls on the plan that remains as calls on the whole one, and calls at absent nodes among them.
pub fn calls(random: &mut Random, plan: &Remaining, calls: Vec<Call>) -> Vec<Call> {
    let absent = plan.absent();
    let mut found = Vec::new();
    for call in calls {
        let call = renumbered(plan, call);
        if !absent.is_empty() && random.below(3) == 0 {
            let node = random.pick(&absent);
            found.push(at_absent(random, plan, &call, node));
        }
        found.push(call);
    }
    found
}

/// The call with the numbers that its nodes have in the whole plan.
fn renumbered(plan: &Remaining, call: Call) -> Call {
    let number = |number: usize| plan.numbers.get(number).copied().unwrap_or(number);
    match call {
        Call::Event(event) => Call::Event(event.at(number(event.node()))),
        Call::FinishTogether(tasks) => {
            Call::FinishTogether(tasks.into_iter().map(number).collect())
        }
        call => call,
    }
}

/// A call at this absent node: mostly an event that its kind permits, or a list of tasks with it.
fn at_absent(random: &mut Random, plan: &Remaining, next: &Call, node: usize) -> Call {
    let [start, finish, skip] = Event::each(node);
    match (random.below(8), next) {
        (0, _) => Call::Event(random.pick(&[start, finish, skip])),
        (1 | 2, Call::FinishTogether(tasks)) => {
            let mut tasks = tasks.clone();
            tasks.push(node);
            tasks.sort_unstable();
            Call::FinishTogether(tasks)
        }
        (3, _) => Call::FinishTogether(vec![node]),
        _ if plan.whole.is_optional(node) => Call::Event(skip),
        _ => Call::Event(random.pick(&[start, finish])),
    }
}
