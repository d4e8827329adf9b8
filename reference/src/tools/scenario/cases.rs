//! Cases of every call on given bytes of a plan.

use super::blocked::{malformed, spread};
use super::lists::any_event;
use super::members::{any_change, any_list, passing};
use super::states::{any_state, bytes, reached_state, reordered_state};
use super::together::any_tasks;
use super::{any_number, Case};
use crate::model::blocked::Remaining;
use crate::model::calls::Call;
use crate::model::events::Event;
use crate::model::format::Plan;
use crate::model::listing::LISTING_LEN;
use crate::model::members::Change;
use crate::model::monitor::{places_begin, state_len, State};
use crate::model::rules::accept;
use crate::model::summary::summary_len;
use crate::tools::random::Random;
use crate::tools::search::running;

/// Lengths of lent memory below, at and above the length that a call needs.
pub fn lengths_around(needed: usize) -> [usize; 6] {
    [0, 1, needed - 1, needed, needed + 1, needed + 40]
}

/// Lengths of a lent state around the one needed, and that of a state without places.
fn state_lengths(plan: &Plan) -> impl Iterator<Item = usize> {
    let around = lengths_around(state_len(plan)).into_iter();
    around.chain([places_begin(plan)])
}

/// Cases of every call with these nodes blocked: on an accepted plan and list with lengths around
/// the limits, all sorts of states and numbers; on a refused one with any of them.
pub fn cases(random: &mut Random, plan: &[u8], blocked: &[usize]) -> Vec<Case> {
    let accepted = accept(plan);
    let found = match &accepted {
        Ok(fields) => match Remaining::new(fields, blocked) {
            Ok(remaining) => on_accepted(random, &remaining),
            Err(_) => on_refused_list(random, fields),
        },
        Err(_) => on_refused(random),
    };
    let case = |(call, lent)| Case {
        call,
        plan: plan.to_vec(),
        blocked: blocked.to_vec(),
        lent,
    };
    found.into_iter().map(case).collect()
}

type Lending = (Call, Vec<u8>);

fn on_refused(random: &mut Random) -> Vec<Lending> {
    let number = random.below(129);
    let calls = [
        Call::Refusal,
        Call::Verdict,
        Call::Summary(number),
        Call::Fresh,
        Call::FinishTogether(vec![number; random.below(3)]),
        Call::Status,
        Call::Listing,
    ];
    let events = Event::each(number).map(Call::Event);
    let changes = Change::each(number).map(Call::Change);
    let lending = |call| {
        let len = random.pick(&[0, 7, 200, 4_096]);
        (call, random.bytes(len))
    };
    let calls = calls.into_iter().chain(events).chain(changes);
    calls.map(lending).collect()
}

/// The list is refused, whatever is lent: also the fresh state, and memory of every length.
fn on_refused_list(random: &mut Random, plan: &Plan) -> Vec<Lending> {
    let mut found = on_refused(random);
    let fresh = bytes(random, plan, &State::fresh(plan), 2);
    let number = any_number(random, plan);
    let calls = [
        Call::Fresh,
        Call::Status,
        Call::FinishTogether(vec![number]),
    ];
    let events = Event::each(number).map(Call::Event);
    let on_fresh = calls.into_iter().chain(events);
    found.extend(on_fresh.map(|call| (call, fresh.clone())));
    for len in lengths_around(summary_len(plan)) {
        found.push((Call::Summary(number), random.bytes(len)));
    }
    found.push((Call::Listing, random.bytes(LISTING_LEN)));
    found
}

fn on_accepted(random: &mut Random, remaining: &Remaining) -> Vec<Lending> {
    let plan = &remaining.whole;
    let nodes = plan.nodes.len();
    let mut found = vec![
        (Call::Refusal, random.bytes(8)),
        (Call::Verdict, random.bytes(8)),
    ];
    for len in lengths_around(summary_len(plan)) {
        for node in [0, nodes - 1, nodes, any_number(random, plan)] {
            found.push((Call::Summary(node), random.bytes(len)));
        }
    }
    for len in lengths_around(LISTING_LEN) {
        found.push((Call::Listing, random.bytes(len)));
    }
    for len in state_lengths(plan) {
        found.push((Call::Fresh, random.bytes(len)));
    }
    found.extend(changes(random, plan));
    for state in states(random, remaining) {
        found.push((Call::Status, state.clone()));
        for _ in 0..4 {
            found.push((Call::Event(any_event(random, plan)), state.clone()));
        }
        for _ in 0..2 {
            let tasks = any_tasks(random, plan, &running(plan, &state));
            found.push((Call::FinishTogether(tasks), state.clone()));
        }
    }
    found
}

/// Calls on lists of members of every kind, and of lengths around the limit.
fn changes(random: &mut Random, plan: &Plan) -> Vec<Lending> {
    let mut lists: Vec<Vec<u8>> = (0..4).map(|_| any_list(random, plan)).collect();
    for len in lengths_around(plan.nodes.len()) {
        let mut list = passing(random, plan);
        list.resize(len, random.byte());
        lists.push(list);
    }
    let lending = |list| (Call::Change(any_change(random, plan)), list);
    lists.into_iter().map(lending).collect()
}

/// States reachable and not, malformed, and of lengths around the limit.
fn states(random: &mut Random, remaining: &Remaining) -> Vec<Vec<u8>> {
    let plan = &remaining.plan;
    let mut found = Vec::new();
    for _ in 0..12 {
        let extra = random.below(4);
        for draw in [any_state, reached_state, reordered_state] {
            let state = draw(random, plan);
            let short = bytes(random, plan, &state, extra);
            found.push(spread(remaining, &short));
        }
    }
    for len in state_lengths(&remaining.whole) {
        let state = reached_state(random, plan);
        let short = bytes(random, plan, &state, 40);
        let mut bytes = spread(remaining, &short);
        bytes.truncate(len);
        found.push(bytes);
    }
    let state = reached_state(random, plan);
    let mut wrong = malformed(random, remaining, &state);
    random.shuffle(&mut wrong);
    wrong.truncate(32);
    found.extend(wrong);
    found
}
