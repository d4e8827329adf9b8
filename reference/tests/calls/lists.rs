//! Calls of the monitor: lists of them, and single ones on states of every kind.

use std::iter::{once, repeat_with};

use reference::model::calls::{Answers, Call};
use reference::model::events::Event;
use reference::model::format::{Plan, Sizes};
use reference::model::monitor::{places_begin, state_len};
use reference::model::places::Places;
use reference::tools::archive;
use reference::tools::generate::clear::{clear_plan, shaken_plan};
use reference::tools::generate::{any_plan, dense_plan, LIMITS, SHAPES};
use reference::tools::random::Random;
use reference::tools::scenario::lists::{any_event, list, long_list};
use reference::tools::scenario::states::{
    any_state, bytes, malformed, reached_state, reordered_state,
};
use reference::tools::scenario::tally::Tally;
use reference::tools::scenario::together::any_tasks;
use reference::tools::scenario::Case;
use reference::tools::search::{running, search_by, subsets};

/// Fresh and then the list. At first the state is of any bytes.
fn replay(tally: &mut Tally, random: &mut Random, plan: &Plan, list: &[Call]) {
    let bytes = plan.bytes();
    let extra = random.below(4);
    let state = random.bytes(state_len(plan) + extra);
    let calls: Vec<Call> = once(&Call::Fresh).chain(list).cloned().collect();
    tally.replay(&Answers::by_rules(&bytes), &bytes, &calls, state);
}

/// Plans of up to 12 nodes.
pub fn small(tally: &mut Tally) {
    let mut random = Random::new(111);
    for nodes in 1..=12 {
        for _ in 0..250 {
            let plan = dense_plan(&mut random, nodes);
            let drawn = list(&mut random, &plan, 4 * nodes);
            replay(tally, &mut random, &plan, &drawn);
            let long = long_list(&mut random, &plan);
            replay(tally, &mut random, &plan, &long);
        }
    }
}

/// Plans of 128 nodes and of any size up to that; those that are CLEAR to their end.
pub fn large(tally: &mut Tally) {
    let mut random = Random::new(112);
    for shape in SHAPES {
        for draw in [clear_plan, shaken_plan] {
            let plan = draw(&mut random, LIMITS, shape);
            let long = long_list(&mut random, &plan);
            replay(tally, &mut random, &plan, &long);
        }
    }
    for _ in 0..20 {
        let plan = any_plan(&mut random, LIMITS);
        let drawn = list(&mut random, &plan, 200);
        replay(tally, &mut random, &plan, &drawn);
    }
}

/// These calls on the state.
pub fn on_state(
    tally: &mut Tally,
    plan: &Plan,
    answers: &Answers,
    state: &[u8],
    calls: impl Iterator<Item = Call>,
) {
    for call in calls {
        let case = Case {
            call,
            plan: plan.bytes(),
            blocked: answers.blocked().to_vec(),
            lent: state.to_vec(),
        };
        tally.compare(answers, &case);
    }
}

/// Every call of the monitor on the state, with some number or list of numbers.
pub fn every_call(
    tally: &mut Tally,
    random: &mut Random,
    plan: &Plan,
    answers: &Answers,
    state: &[u8],
) {
    let events = Event::each(any_event(random, plan).node()).map(Call::Event);
    let tasks = any_tasks(random, plan, &running(plan, state));
    let others = [Call::Fresh, Call::FinishTogether(tasks), Call::Status];
    on_state(
        tally,
        plan,
        answers,
        state,
        others.into_iter().chain(events),
    );
}

/// States that lists reach and others, each of all lengths from below 8 + N to above 8 + 3N and
/// with each fault that makes it malformed.
pub fn states(tally: &mut Tally) {
    let mut random = Random::new(113);
    let medium = Sizes {
        nodes: 24,
        conditions: 60,
        orders: 30,
        flags: 64,
    };
    let mut plans: Vec<Plan> = (0..150).map(|_| any_plan(&mut random, medium)).collect();
    for nodes in 1..=8 {
        plans.extend((0..10).map(|_| dense_plan(&mut random, nodes)));
    }
    plans.extend((0..3).map(|_| any_plan(&mut random, LIMITS)));
    for plan in plans {
        let answers = Answers::by_rules(&plan.bytes());
        for draw in [any_state, reached_state, reordered_state] {
            let state = draw(&mut random, &plan);
            let good = bytes(&mut random, &plan, &state, 40);
            let around = places_begin(&plan).saturating_sub(12)..=state_len(&plan) + 12;
            for len in around.chain([0, 1, good.len()]) {
                every_call(tally, &mut random, &plan, &answers, &good[..len]);
            }
            for wrong in malformed(&mut random, &plan, &state) {
                every_call(tally, &mut random, &plan, &answers, &wrong);
            }
        }
    }
}

/// Calls on well-formed states that no list reaches, such as with two branches of a choice begun.
pub fn unreachable(tally: &mut Tally) {
    let mut random = Random::new(114);
    for nodes in 1..=14 {
        for _ in 0..200 {
            let plan = dense_plan(&mut random, nodes);
            let answers = Answers::by_rules(&plan.bytes());
            for _ in 0..4 {
                let state = any_state(&mut random, &plan);
                let state = bytes(&mut random, &plan, &state, 1);
                every_call(tally, &mut random, &plan, &answers, &state);
            }
        }
    }
}

/// All statuses of three tasks, with each of these places at each of them and at their group.
pub fn places(tally: &mut Tally) {
    let mut random = Random::new(116);
    let plan = Plan::flat(1, 4);
    let answers = Answers::by_rules(&plan.bytes());
    let numbers = [0, 1, 2, 3, 4, 257];
    for statuses in 0..27 {
        let statuses = [0, statuses / 9, statuses / 3 % 3, statuses % 3];
        for at in 0..6_usize.pow(4) {
            let place = |node| numbers[at / 6_usize.pow(node) % 6];
            let places = Places((0..4).map(place).collect());
            let state = [&[0; 8][..], &statuses, &places.bytes()].concat();
            every_call(tally, &mut random, &plan, &answers, &state);
        }
    }
}

/// Each of the bytes 0 to 3 at each node of small plans with optional groups: the status, every
/// event of every node and of the number after the last, and each rising list of these together.
pub fn statuses(tally: &mut Tally) {
    let mut random = Random::new(117);
    let drawn = repeat_with(|| {
        let nodes = random.within(2, 5);
        dense_plan(&mut random, nodes)
    });
    let with_optional = drawn.filter(|plan| plan.optional_groups().next().is_some());
    for plan in with_optional.take(30) {
        let answers = Answers::by_rules(&plan.bytes());
        let nodes = plan.nodes.len();
        for at in 0..1_usize << (2 * nodes) {
            let byte = |node: usize| (at >> (2 * node) & 3) as u8;
            let bytes: Vec<u8> = (0..nodes).map(byte).collect();
            let events = (0..=nodes).flat_map(Event::each).map(Call::Event);
            let together = subsets((0..=nodes).collect()).map(Call::FinishTogether);
            let calls = events.chain(together).chain([Call::Status]);
            on_state(tally, &plan, &answers, &in_order(&plan, &bytes), calls);
        }
    }
}

/// A state with the start flags and these bytes at the nodes; the tasks whose byte is not 0 were
/// started in the order of their numbers.
pub fn in_order(plan: &Plan, bytes: &[u8]) -> Vec<u8> {
    let mut places = Places::none(plan);
    let started = plan.tasks().filter(|&task| bytes[task] != 0);
    for (place, task) in (1..).zip(started) {
        places.0[task] = place;
    }
    [&plan.start[..], bytes, &places.bytes()].concat()
}

/// What demand 3 says of CLEAR and DOOMED, by all lists of calls of the archive alone.
pub fn claims(tally: &mut Tally) {
    let mut random = Random::new(115);
    for (nodes, plans) in (1..).zip([100, 500, 1_500, 2_000, 1_500, 800, 300, 60]) {
        for _ in 0..plans {
            let plan = dense_plan(&mut random, nodes);
            let case = Case {
                call: Call::Verdict,
                plan: plan.bytes(),
                blocked: Vec::new(),
                lent: Vec::new(),
            };
            let verdict = tally
                .compare(&Answers::by_rules(&case.plan), &case)
                .returned;
            let found = search_by(&plan, &[], archive::make);
            assert_eq!(verdict == 128, found.is_clear(), "{plan:?}");
            assert!(verdict != 129 || !found.completable, "{plan:?}");
        }
    }
}
