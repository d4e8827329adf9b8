//! Calls of the monitor with blocked nodes: lists of them, and single ones on states of every kind.

use reference::model::blocked::Remaining;
use reference::model::calls::{Answers, Call};
use reference::model::format::Plan;
use reference::model::monitor::state_len;
use reference::tools::archive;
use reference::tools::generate::clear::{clear_plan, shaken_plan};
use reference::tools::generate::{any_plan, LIMITS, SHAPES};
use reference::tools::random::Random;
use reference::tools::scenario::blocked::{calls, malformed, passing, spread};
use reference::tools::scenario::lists::{list, long_list};
use reference::tools::scenario::states::{any_state, bytes, reached_state};
use reference::tools::scenario::tally::Tally;
use reference::tools::search::search_by;

use super::promises::{verdict, CLEAR, DOOMED};
use super::{lists_of_branches, plans, plans_of_sizes, with_lists};
use crate::lists::{every_call, in_order};

/// What remains, and the answers to calls with this list.
fn given(plan: &Plan, blocked: &[usize]) -> (Remaining, Answers) {
    let remaining = Remaining::new(plan, blocked).expect("an accepted list");
    let answers = Answers::by_rules(&plan.bytes()).blocking(blocked);
    (remaining, answers)
}

/// Fresh and then calls drawn for the plan that remains, with others at absent nodes. At first the
/// state is of any bytes.
fn replay(
    tally: &mut Tally,
    random: &mut Random,
    (remaining, answers): &(Remaining, Answers),
    drawn: Vec<Call>,
) {
    let plan = &remaining.whole;
    let extra = random.below(4);
    let lent = random.bytes(state_len(plan) + extra);
    let mut list = vec![Call::Fresh];
    list.extend(calls(random, remaining, drawn));
    tally.replay(answers, &plan.bytes(), &list, lent);
}

/// Plans of up to 12 nodes.
pub fn small(tally: &mut Tally) {
    let mut random = Random::new(171);
    for plan in plans(&mut random, 3..=12, 150) {
        let blocked = passing(&mut random, &plan);
        let given = given(&plan, &blocked);
        let drawn = list(&mut random, &given.0.plan, 3 * plan.nodes.len());
        replay(tally, &mut random, &given, drawn);
        let drawn = long_list(&mut random, &given.0.plan);
        replay(tally, &mut random, &given, drawn);
    }
}

/// Plans of 128 nodes and of any size up to that; those that are CLEAR to their end.
pub fn large(tally: &mut Tally) {
    let mut random = Random::new(172);
    for shape in SHAPES {
        for draw in [clear_plan, shaken_plan] {
            let plan = draw(&mut random, LIMITS, shape);
            let blocked = passing(&mut random, &plan);
            let given = given(&plan, &blocked);
            let drawn = long_list(&mut random, &given.0.plan);
            replay(tally, &mut random, &given, drawn);
        }
    }
    for _ in 0..10 {
        let plan = any_plan(&mut random, LIMITS);
        let blocked = passing(&mut random, &plan);
        let given = given(&plan, &blocked);
        let drawn = list(&mut random, &given.0.plan, 120);
        replay(tally, &mut random, &given, drawn);
    }
}

/// States of the plan that remains, reachable and not, with each fault that makes one malformed: at
/// absent nodes any byte and any place.
pub fn states(tally: &mut Tally) {
    let mut random = Random::new(173);
    let plans = plans(&mut random, 3..=10, 40);
    for (plan, blocked) in with_lists(&mut random, plans) {
        let (remaining, answers) = given(&plan, &blocked);
        for draw in [any_state, reached_state] {
            let state = draw(&mut random, &remaining.plan);
            let good = spread(&remaining, &bytes(&mut random, &remaining.plan, &state, 1));
            let mut states = malformed(&mut random, &remaining, &state);
            states.extend([good.clone(), good[..good.len() - 2].to_vec(), good]);
            for state in states {
                every_call(tally, &mut random, &plan, &answers, &state);
            }
        }
    }
}

/// Each of the bytes 0 to 2 at each node of small plans, started tasks in their order: every call
/// of the monitor with every accepted list.
pub fn statuses(tally: &mut Tally) {
    let mut random = Random::new(174);
    for plan in plans(&mut random, 2..=5, 8) {
        let nodes = plan.nodes.len() as u32;
        for blocked in lists_of_branches(&plan) {
            let answers = Answers::by_rules(&plan.bytes()).blocking(&blocked);
            for at in 0..3_usize.pow(nodes) {
                let byte = |node| (at / 3_usize.pow(node) % 3) as u8;
                let state: Vec<u8> = (0..nodes).map(byte).collect();
                let state = in_order(&plan, &state);
                every_call(tally, &mut random, &plan, &answers, &state);
            }
        }
    }
}

/// What demand 3 says of CLEAR and DOOMED, with one list given to all calls: by all lists of calls
/// of the archive alone.
pub fn claims(tally: &mut Tally) {
    let mut random = Random::new(175);
    let mut met = [0; 3];
    let sizes = (2..).zip([200, 800, 2_000, 2_500, 1_500, 600, 150]);
    let plans = plans_of_sizes(&mut random, sizes);
    for (plan, blocked) in with_lists(&mut random, plans) {
        let verdict = verdict(tally, &plan, &blocked);
        let found = search_by(&plan, &blocked, archive::make);
        let place = || format!("{blocked:?} of {plan:?}");
        assert_eq!(verdict == CLEAR, found.is_clear(), "{}", place());
        assert!(verdict != DOOMED || !found.completable, "{}", place());
        met[verdict as usize - 128] += 1;
    }
    println!("CLEAR, DOOMED, OPEN with nodes blocked: {met:?}");
    assert!(met.iter().all(|&count| count > 500));
}
