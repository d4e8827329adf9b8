//! States of an accepted plan as bytes: well formed and malformed.

use super::lists;
use crate::model::events::{Status, Statuses};
use crate::model::format::Plan;
use crate::model::monitor::{places_begin, state_len, State};
use crate::model::places::Places;
use crate::tools::random::Random;

/// A well-formed state, in most cases one that no list of calls reaches.
pub fn any_state(random: &mut Random, plan: &Plan) -> State {
    let statuses = [Status::Waiting, Status::Running, Status::Done];
    // Some states are nearly fresh, others nearly done.
    let likely = random.pick(&statuses);
    let mut state = State {
        flags: random.draw() >> (64 - plan.flags),
        ..State::fresh(plan)
    };
    for task in plan.tasks() {
        state.statuses.0[task] = match random.below(2) {
            0 => likely,
            _ => random.pick(&statuses),
        };
    }
    for group in plan.optional_groups() {
        if random.below(4) == 0 {
            state.statuses.0[group] = Status::Skipped;
        }
    }
    state.places = any_places(random, &state.statuses);
    state
}

/// A well-formed state with the start flags in which these tasks run, started in this order, and
/// all others wait.
pub fn with_running(plan: &Plan, tasks: impl Iterator<Item = usize>) -> State {
    let mut state = State::fresh(plan);
    for (place, task) in (1..).zip(tasks) {
        state.statuses.0[task] = Status::Running;
        state.places.0[task] = place;
    }
    state
}

/// A well-formed state in which most tasks run.
pub fn mostly_running(random: &mut Random, plan: &Plan) -> State {
    let mut state = State {
        flags: random.draw() >> (64 - plan.flags),
        ..with_running(plan, plan.tasks())
    };
    for task in plan.tasks() {
        if random.below(4) == 0 {
            state.statuses.0[task] = Status::Done;
        }
    }
    state
}

/// Places as they are after starts in any order.
fn any_places(random: &mut Random, statuses: &Statuses) -> Places {
    let nodes = statuses.0.len();
    let mut order: Vec<usize> = (0..nodes).filter(|&node| statuses.started(node)).collect();
    random.shuffle(&mut order);
    let mut places = vec![0; nodes];
    for (place, task) in (1..).zip(order) {
        places[task] = place;
    }
    Places(places)
}

/// A state that some list of calls reaches.
pub fn reached_state(random: &mut Random, plan: &Plan) -> State {
    let calls = random.below(3 * plan.nodes.len());
    let list = lists::list(random, plan, calls);
    list.iter().fold(State::fresh(plan), |state, call| {
        lists::after(plan, &state, call).unwrap_or(state)
    })
}

/// A state that some list of calls reaches, but for the order of its starts.
pub fn reordered_state(random: &mut Random, plan: &Plan) -> State {
    let mut state = reached_state(random, plan);
    state.places = any_places(random, &state.statuses);
    state
}

/// The bytes of a state, with random ones after them.
pub fn bytes(random: &mut Random, plan: &Plan, state: &State, extra: usize) -> Vec<u8> {
    let mut bytes = random.bytes(state_len(plan) + extra);
    state.write(&mut bytes);
    bytes
}

/// The bytes of a well-formed state, each time with one fault: a bit beyond the flags, a wrong byte
/// at a node, or wrong places.
pub fn malformed(random: &mut Random, plan: &Plan, state: &State) -> Vec<Vec<u8>> {
    let good = bytes(random, plan, state, 2);
    let beyond = (usize::from(plan.flags)..64).map(|flag| (flag / 8, 1 << (flag % 8)));
    let bits = beyond.map(|(at, bit)| (at, good[at] | bit));
    let nodes = (0..plan.nodes.len()).flat_map(|node| {
        let wrong = wrong_bytes(plan, state, node).iter();
        wrong.map(move |&byte| (8 + node, byte))
    });
    let with_byte = |(at, byte)| {
        let mut bytes = good.clone();
        bytes[at] = byte;
        bytes
    };
    let with_places = |places: Places| {
        let mut bytes = good.clone();
        bytes[places_begin(plan)..state_len(plan)].copy_from_slice(&places.bytes());
        bytes
    };
    let places = wrong_places(&state.places).into_iter().map(with_places);
    bits.chain(nodes).map(with_byte).chain(places).collect()
}

/// At a group any but 0, and 2 if it is optional; at a task those over 2, and those that make it
/// started without a place or not started with one.
fn wrong_bytes(plan: &Plan, state: &State, node: usize) -> &'static [u8] {
    if plan.is_optional(node) {
        return &[1, 3, 4, 128, 255];
    }
    if !plan.is_task(node) {
        return &[1, 2, 3, 255];
    }
    match state.statuses.started(node) {
        false => &[1, 2, 3, 4, 128, 255],
        true => &[0, 3, 4, 128, 255],
    }
}

/// Places that do not fit where these do. One number is another: a place at a node not started, 0
/// at a task that is, a repeated place, one above the count, one with another high byte. Or there
/// is a gap, and the later places are one higher. Or they begin with 0.
fn wrong_places(right: &Places) -> Vec<Places> {
    let count = right.in_order().len() as u16;
    let with = |node: usize, place| {
        let mut places = right.clone();
        places.0[node] = place;
        places
    };
    let mut wrong = Vec::new();
    for (node, &place) in right.0.iter().enumerate() {
        let (swapped, high) = (place.swap_bytes(), place + 256);
        let others = [0, 1, count, count + 1, place ^ 1, swapped, high, 65_535];
        let others = others.into_iter().filter(|&other| other != place);
        wrong.extend(others.map(|other| with(node, other)));
    }
    for gap in 1..=count {
        let raised = right.0.iter().map(|&p| p + u16::from(p >= gap));
        wrong.push(Places(raised.collect()));
    }
    if count > 0 {
        let lowered = right.0.iter().map(|place| place.saturating_sub(1));
        wrong.push(Places(lowered.collect()));
    }
    wrong
}
