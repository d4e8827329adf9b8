//! All lists of calls on a small plan, for what demand 3 says of its verdict.

use std::collections::HashSet;

use crate::model::calls::{Answers, Call};
use crate::model::events::Event;
use crate::model::format::Plan;
use crate::model::monitor::{places_begin, state_len};

/// What the status call returns then.
const COMPLETE: u32 = 128;

/// What some list of start, finish, skip and finish-together calls, from the fresh state and all
/// with the same nodes blocked, can bring about.
#[derive(Clone, Copy, Debug, PartialEq, Eq)]
pub struct Outcome {
    /// Some call returns 21 or 22.
    pub conflict: bool,
    /// Some call returns 26.
    pub opposed: bool,
    /// The root is complete after some list.
    pub completable: bool,
}

impl Outcome {
    /// Whether no call returns 21, 22 or 26, which makes the plan CLEAR.
    pub fn is_clear(&self) -> bool {
        !self.conflict && !self.opposed
    }
}

/// By the reference, with these nodes blocked.
pub fn search(plan: &Plan, blocked: &[usize]) -> Outcome {
    let answers = Answers::by_rules(&plan.bytes()).blocking(blocked);
    search_by(plan, blocked, |call, _, _, lent| answers.make(call, lent))
}

/// Goes through every state that these calls reach, but for the order of starts: no return depends
/// on it, and there are too many. Numbers beyond the nodes only ever return 17 or 27, and lists of
/// tasks that do not rise or do not all run 25, 17 or 18.
pub fn search_by(
    plan: &Plan,
    blocked: &[usize],
    make: impl Fn(&Call, &mut [u8], &[usize], &mut [u8]) -> u32,
) -> Outcome {
    let mut outcome = Outcome {
        conflict: false,
        opposed: false,
        completable: false,
    };
    let mut bytes = plan.bytes();
    let mut make = |call: &Call, state: &mut [u8]| make(call, &mut bytes, blocked, state);
    let mut fresh = vec![0; state_len(plan)];
    assert_eq!(make(&Call::Fresh, &mut fresh), 0);
    let without_places = |state: &[u8]| state[..places_begin(plan)].to_vec();
    let mut seen = HashSet::from([without_places(&fresh)]);
    let mut open = vec![fresh];
    while let Some(mut state) = open.pop() {
        outcome.completable |= make(&Call::Status, &mut state) == COMPLETE;
        let events = (0..plan.nodes.len()).flat_map(Event::each).map(Call::Event);
        let together = subsets(running(plan, &state)).map(Call::FinishTogether);
        for call in events.chain(together) {
            let mut after = state.clone();
            match make(&call, &mut after) {
                0 if seen.insert(without_places(&after)) => open.push(after),
                21 | 22 => outcome.conflict = true,
                26 => outcome.opposed = true,
                _ => {}
            }
        }
    }
    outcome
}

/// The tasks whose byte is that of a running one, in a state of any bytes and length.
pub fn running(plan: &Plan, state: &[u8]) -> Vec<usize> {
    let runs = |task: &usize| state.get(8 + task) == Some(&1);
    plan.tasks().filter(runs).collect()
}

/// The lists of some of these tasks, in their order; not the empty one.
pub fn subsets(tasks: Vec<usize>) -> impl Iterator<Item = Vec<usize>> {
    (1..1_usize << tasks.len()).map(move |bits| {
        let listed = tasks
            .iter()
            .enumerate()
            .filter(|(at, _)| bits >> at & 1 == 1);
        listed.map(|(_, &task)| task).collect()
    })
}
