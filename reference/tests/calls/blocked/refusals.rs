//! Refusals 28 and 29, and their place after 14 and before 15 and 16.

use reference::model::calls::{Answers, Call};
use reference::model::events::Event;
use reference::model::format::{Plan, Sizes, ALL_OF, ANY_OF, OPTIONAL};
use reference::model::monitor::State;
use reference::tools::edit::edit;
use reference::tools::generate::{any_plan, LIMITS};
use reference::tools::random::Random;
use reference::tools::scenario::blocked::{any_blocked, branches};
use reference::tools::scenario::cases::cases;
use reference::tools::scenario::states::bytes;
use reference::tools::scenario::tally::Tally;
use reference::tools::scenario::{any_number, Case};

use super::{lists_of_branches, plans};
use crate::together::up_to_three;

/// The calls that take a list, with some number.
fn every_call(random: &mut Random, plan: &Plan) -> Vec<Call> {
    let number = any_number(random, plan);
    let mut calls = vec![
        Call::Verdict,
        Call::Summary(number),
        Call::Fresh,
        Call::FinishTogether(vec![number]),
        Call::Status,
    ];
    calls.extend(Event::each(number).map(Call::Event));
    calls
}

/// Every call with this list: lent too little, a malformed state, and the fresh one.
fn on_each_memory(tally: &mut Tally, random: &mut Random, plan: &Plan, blocked: &[usize]) {
    let answers = Answers::by_rules(&plan.bytes()).blocking(blocked);
    let fresh = bytes(random, plan, &State::fresh(plan), 1_024);
    let short = random.below(8);
    let calls = every_call(random, plan);
    for lent in [fresh[..short].to_vec(), vec![255; fresh.len()], fresh] {
        for call in &calls {
            let case = Case {
                call: call.clone(),
                plan: plan.bytes(),
                blocked: blocked.to_vec(),
                lent: lent.clone(),
            };
            tally.compare(&answers, &case);
        }
    }
}

/// Every list of up to three numbers, in any order and with repeats: those of the nodes, the one
/// after the last, and the greatest; on small plans.
pub fn numbers(tally: &mut Tally) {
    let mut random = Random::new(151);
    for plan in plans(&mut random, 2..=6, 12) {
        let numbers: Vec<usize> = (0..=plan.nodes.len()).chain([usize::MAX]).collect();
        for blocked in up_to_three(&numbers) {
            on_each_memory(tally, &mut random, &plan, &blocked);
        }
    }
}

/// Every list of branches in rising order, on plans with up to nine of them.
pub fn branches_left(tally: &mut Tally) {
    let mut random = Random::new(152);
    for plan in plans(&mut random, 3..=10, 20) {
        for blocked in lists_of_branches(&plan) {
            on_each_memory(tally, &mut random, &plan, &blocked);
        }
    }
}

/// Long lists, lists of the highest numbers, and lists in which one number is not a branch's, on
/// plans of all sizes.
pub fn long(tally: &mut Tally) {
    let mut random = Random::new(153);
    let mut plans = vec![Plan::one_task(1)];
    for kind in [ALL_OF, ANY_OF, OPTIONAL] {
        plans.push(Plan::flat(64, 128));
        plans.last_mut().unwrap().nodes[0].kind = kind;
    }
    plans.extend((0..3).map(|_| any_plan(&mut random, LIMITS)));
    for plan in plans {
        let mut lists: Vec<Vec<usize>> = vec![branches(&plan)];
        for len in [127, 128, 129, 3_000] {
            lists.push((0..len).collect());
            lists.push((1..=len).collect());
            lists.push((1..len).rev().collect());
            lists.push(vec![len; len]);
            lists.push((usize::MAX - len..=usize::MAX).collect());
        }
        for high in [1 << 8, 1 << 16, 1 << 32, 1 << 63] {
            let some = branches(&plan).into_iter().take(4);
            lists.extend(some.map(|node| vec![node + high]));
        }
        lists.extend((0..20).map(|_| any_blocked(&mut random, &plan)));
        for blocked in lists {
            on_each_memory(tally, &mut random, &plan, &blocked);
        }
    }
}

/// Every call on plans of all sizes, half of them damaged, with lists of any kind.
pub fn damaged(tally: &mut Tally) {
    let mut random = Random::new(154);
    let small = Sizes {
        nodes: 14,
        conditions: 30,
        orders: 10,
        flags: 64,
    };
    let mut plans: Vec<Plan> = (0..700).map(|_| any_plan(&mut random, small)).collect();
    plans.extend((0..6).map(|_| any_plan(&mut random, LIMITS)));
    for mut plan in plans {
        let blocked = any_blocked(&mut random, &plan);
        for _ in 0..2 {
            let bytes = plan.bytes();
            let answers = Answers::by_rules(&bytes).blocking(&blocked);
            for case in cases(&mut random, &bytes, &blocked) {
                tally.compare(&answers, &case);
            }
            edit(&mut plan, &mut random);
        }
    }
}
