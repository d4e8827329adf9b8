//! The monitor (01: keeper): the calls on a state (01: record) of a plan with blocked nodes.

mod state;

use crate::model::blocked::Remaining;
use crate::model::events::Event;
use state::{long_enough, some_rising};
pub use state::{places_begin, state_len, Progress, State};

/// Writes the first state, or meets refusal 15.
pub fn fresh(plan: &Remaining, state: &mut [u8]) -> Result<(), u32> {
    long_enough(&plan.whole, state)?;
    State::fresh(&plan.whole).write(state);
    Ok(())
}

/// Takes in the start or finish of a task or the skip of an optional group, or meets the first of
/// refusals 15 to 22, for a skip 27 in the place of 17.
pub fn happen(plan: &Remaining, state: &mut [u8], event: Event) -> Result<(), u32> {
    let before = read(plan, state)?;
    let after = before.step(&plan.plan, plan.event(event)?)?;
    write(plan, &after, state);
    Ok(())
}

/// Takes in the finishes of the listed tasks in one step, or meets the first of refusals 15, 16,
/// 25, 17, 18, 26 and 22.
pub fn finish_together(plan: &Remaining, state: &mut [u8], tasks: &[usize]) -> Result<(), u32> {
    let before = read(plan, state)?;
    some_rising(tasks)?;
    let after = before.step_together(&plan.plan, &plan.tasks(tasks)?)?;
    write(plan, &after, state);
    Ok(())
}

/// How far the root is, or refusal 15 or 16.
pub fn status(plan: &Remaining, state: &[u8]) -> Result<Progress, u32> {
    Ok(read(plan, state)?.progress(&plan.plan))
}

/// What the bytes say of the nodes that remain, or refusal 15 or 16, which also covers a byte that
/// is not 0 at an absent node, and a place there.
pub fn read(plan: &Remaining, bytes: &[u8]) -> Result<State, u32> {
    long_enough(&plan.whole, bytes)?;
    let absent = plan.absent();
    if positions(plan, &absent).any(|at| bytes[at] != 0) {
        return Err(16);
    }
    State::read(&plan.plan, &taken(plan, bytes))
}

/// Writes a state of the plan that remains. At absent nodes all stays.
pub fn write(plan: &Remaining, state: &State, bytes: &mut [u8]) {
    let mut short = taken(plan, bytes);
    state.write(&mut short);
    put(plan, &short, bytes);
}

/// Puts the bytes of a state of the plan that remains where they stand in one of the whole plan.
pub fn put(plan: &Remaining, short: &[u8], bytes: &mut [u8]) {
    for (at, &byte) in shared(plan).zip(short) {
        bytes[at] = byte;
    }
}

/// The bytes of a state of the plan that remains.
fn taken(plan: &Remaining, bytes: &[u8]) -> Vec<u8> {
    shared(plan).map(|at| bytes[at]).collect()
}

/// Where in a state the bytes stand that one of the plan that remains has, in their order.
fn shared(plan: &Remaining) -> impl Iterator<Item = usize> + '_ {
    (0..8).chain(positions(plan, &plan.numbers))
}

/// Where in a state the bytes of these nodes stand, then those of their places.
fn positions<'a>(plan: &Remaining, nodes: &'a [usize]) -> impl Iterator<Item = usize> + 'a {
    let begin = places_begin(&plan.whole);
    let statuses = nodes.iter().map(|node| 8 + node);
    let places = nodes.iter().map(move |node| begin + 2 * node);
    statuses.chain(places.flat_map(|at| [at, at + 1]))
}
