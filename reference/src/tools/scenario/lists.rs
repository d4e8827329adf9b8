//! Lists of start, finish, skip and finish-together calls.

use std::iter::once;

use super::together::{any_tasks, some_of};
use super::{any_number, After, Case};
use crate::model::calls::Call;
use crate::model::events::Event;
use crate::model::format::Plan;
use crate::model::monitor::State;
use crate::tools::random::Random;

/// So many random calls, to be made from the fresh state. Half of them are meant to be accepted,
/// and some to meet 21, 22 or 26, which succeeds where a few draws find such a call.
pub fn list(random: &mut Random, plan: &Plan, calls: usize) -> Vec<Call> {
    type Draw = fn(&mut Random, &Plan, &State) -> Call;
    type Wanted = fn(Result<State, u32>) -> bool;
    let mut state = State::fresh(plan);
    let mut list = Vec::new();
    for _ in 0..calls {
        let (draw, wanted): (Draw, Wanted) = match random.below(14) {
            0 | 1 => (any_call, |_| true),
            2 => (single, |after| after == Err(21)),
            3 | 4 => (single, |after| after == Err(22)),
            5 => (together, |after| after == Err(22)),
            6 => (together, |after| after == Err(26)),
            7 | 8 => (start, |after| after.is_ok()),
            _ => (any_call, |after| after.is_ok()),
        };
        let mut drawn = (0..16).map(|_| draw(random, plan, &state));
        let found = drawn.find(|call| wanted(after(plan, &state, call)));
        let call = found.unwrap_or_else(|| any_call(random, plan, &state));
        state = after(plan, &state, &call).unwrap_or(state);
        list.push(call);
    }
    list
}

/// Calls that go on until no event is accepted any more, nor all running tasks at once, others
/// among them: on a plan that is CLEAR, to its end.
pub fn long_list(random: &mut Random, plan: &Plan) -> Vec<Call> {
    let mut state = State::fresh(plan);
    let mut list = Vec::new();
    loop {
        let running: Vec<usize> = state.statuses.running(plan).collect();
        let together = [some_of(random, &running), running].map(Call::FinishTogether);
        let calls = Event::under(plan, 0).map(Call::Event).chain(together);
        let accepted = calls.filter_map(|call| Some((after(plan, &state, &call).ok()?, call)));
        let mut accepted: Vec<(State, Call)> = accepted.collect();
        if accepted.is_empty() {
            return list;
        }
        let (after_it, call) = accepted.swap_remove(random.below(accepted.len()));
        list.push(call);
        state = after_it;
        if random.below(2) == 0 {
            let other = any_call(random, plan, &state);
            state = after(plan, &state, &other).unwrap_or(state);
            list.push(other);
        }
    }
}

/// The state after a call, or its refusal from 17 on. Most calls write no state.
pub fn after(plan: &Plan, state: &State, call: &Call) -> Result<State, u32> {
    match call {
        Call::Event(event) => state.step(plan, *event),
        Call::FinishTogether(tasks) => state.step_together(plan, tasks),
        Call::Fresh => Ok(State::fresh(plan)),
        _ => Ok(state.clone()),
    }
}

/// An event or, less often, finishes together.
fn any_call(random: &mut Random, plan: &Plan, state: &State) -> Call {
    let draw = random.pick(&[single, single, single, single, single, together]);
    draw(random, plan, state)
}

fn start(random: &mut Random, plan: &Plan, _: &State) -> Call {
    Call::Event(Event::Start(any_number(random, plan)))
}

fn single(random: &mut Random, plan: &Plan, _: &State) -> Call {
    Call::Event(any_event(random, plan))
}

fn together(random: &mut Random, plan: &Plan, state: &State) -> Call {
    let running: Vec<usize> = state.statuses.running(plan).collect();
    Call::FinishTogether(any_tasks(random, plan, &running))
}

/// Mostly one that the kind of its node permits.
pub fn any_event(random: &mut Random, plan: &Plan) -> Event {
    let number = any_number(random, plan);
    let [start, finish, skip] = Event::each(number);
    match random.below(8) {
        0 => random.pick(&[start, finish, skip]),
        _ if plan.is_optional(number) => skip,
        _ => random.pick(&[start, finish]),
    }
}

/// What fresh and then each call of the list returns and leaves, all with the same nodes blocked,
/// from these lent bytes.
pub fn replay(
    plan: &[u8],
    blocked: &[usize],
    list: &[Call],
    mut lent: Vec<u8>,
    make: impl Fn(&Call, &mut [u8], &[usize], &mut [u8]) -> u32,
) -> Vec<After> {
    let calls = once(&Call::Fresh).chain(list);
    let after_each = calls.map(|call| {
        let case = Case {
            call: call.clone(),
            plan: plan.to_vec(),
            blocked: blocked.to_vec(),
            lent: lent.clone(),
        };
        let after = case.make(&make);
        lent = after.lent.clone();
        after
    });
    after_each.collect()
}
