//! Finishes of a list of tasks in one step.

use reference::model::calls::{Answers, Call};
use reference::model::format::{Plan, Sizes};
use reference::tools::generate::{any_plan, dense_plan, LIMITS};
use reference::tools::random::Random;
use reference::tools::scenario::states::{
    any_state, bytes, mostly_running, reached_state, with_running,
};
use reference::tools::scenario::tally::Tally;
use reference::tools::scenario::together::{any_tasks, some_of};
use reference::tools::search::{self, subsets};

use crate::lists::on_state;

/// Every list of up to three numbers, in any order and with repeats: those of the nodes, the one
/// after the last, and the greatest.
pub fn orders(tally: &mut Tally) {
    let mut random = Random::new(131);
    for nodes in 1..=5 {
        for _ in 0..20 {
            let plan = dense_plan(&mut random, nodes);
            let answers = Answers::by_rules(&plan.bytes());
            let numbers: Vec<usize> = (0..=nodes).chain([usize::MAX]).collect();
            for draw in [any_state, mostly_running, reached_state] {
                let state = draw(&mut random, &plan);
                let state = bytes(&mut random, &plan, &state, 1);
                let calls = up_to_three(&numbers).map(Call::FinishTogether);
                on_state(tally, &plan, &answers, &state, calls);
            }
        }
    }
}

pub fn up_to_three(numbers: &[usize]) -> impl Iterator<Item = Vec<usize>> + '_ {
    let count = numbers.len() + 1;
    // The last number of all stands for none.
    let digits = move |at: usize| [at / count / count, at / count % count, at % count];
    let number = |digit: usize| numbers.get(digit).copied();
    (0..count.pow(3)).map(move |at| digits(at).into_iter().filter_map(number).collect())
}

/// Lists of running tasks, all of them on small plans, and lists near such.
pub fn running(tally: &mut Tally) {
    let mut random = Random::new(132);
    let medium = Sizes {
        nodes: 40,
        conditions: 60,
        orders: 30,
        flags: 64,
    };
    let mut plans: Vec<Plan> = (0..300).map(|_| any_plan(&mut random, medium)).collect();
    for nodes in 2..=9 {
        plans.extend((0..150).map(|_| dense_plan(&mut random, nodes)));
    }
    plans.extend((0..6).map(|_| any_plan(&mut random, LIMITS)));
    for plan in plans {
        let answers = Answers::by_rules(&plan.bytes());
        for draw in [mostly_running, reached_state] {
            let state = draw(&mut random, &plan);
            let state = bytes(&mut random, &plan, &state, 2);
            let running = search::running(&plan, &state);
            let lists: Vec<Vec<usize>> = match running.len() {
                0..=5 => subsets(running).collect(),
                _ => (0..30).map(|_| some_of(&mut random, &running)).collect(),
            };
            let calls = lists.into_iter().map(Call::FinishTogether);
            on_state(tally, &plan, &answers, &state, calls);
        }
    }
}

/// Lists of thousands of numbers, and lists near such, on plans of all sizes.
pub fn long(tally: &mut Tally) {
    let mut random = Random::new(133);
    let mut plans = vec![Plan::one_task(1), Plan::flat(1, 2), Plan::flat(64, 128)];
    plans.extend((0..5).map(|_| any_plan(&mut random, LIMITS)));
    for plan in plans {
        let answers = Answers::by_rules(&plan.bytes());
        let mut lists: Vec<Vec<usize>> = Vec::new();
        for len in [127, 128, 129, 1_000, 10_000] {
            lists.push((0..len).collect());
            lists.push((1..=len).collect());
            lists.push((0..len).rev().collect());
            lists.push(vec![len; len]);
            lists.push((usize::MAX - len..=usize::MAX).collect());
            lists.push((0..len).chain([len - 1]).collect());
        }
        lists.extend((0..100).map(|_| any_tasks(&mut random, &plan, &[])));
        let state = with_running(&plan, plan.tasks());
        let state = bytes(&mut random, &plan, &state, 0);
        let calls = lists.into_iter().map(Call::FinishTogether);
        on_state(tally, &plan, &answers, &state, calls);
    }
}
