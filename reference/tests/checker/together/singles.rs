//! Finishes together against single finishes, on drawn plans and states.

use reference::model::calls::Call;
use reference::model::format::{Plan, Sizes};
use reference::tools::generate::{any_plan, dense_plan};
use reference::tools::random::Random;
use reference::tools::scenario::any_number;
use reference::tools::scenario::states::{any_state, bytes, mostly_running, reached_state};
use reference::tools::search::{running, subsets};

use super::{finish, together};
use crate::{make, shown};

/// Drawn plans, each with the bytes of some well-formed states.
fn for_each_state(seed: u64, mut check: impl FnMut(&mut Random, &Plan, &[u8])) {
    let mut random = Random::new(seed);
    let medium = Sizes {
        nodes: 30,
        conditions: 60,
        orders: 20,
        flags: 8,
    };
    let mut plans: Vec<Plan> = (0..150).map(|_| any_plan(&mut random, medium)).collect();
    for nodes in 2..=8 {
        plans.extend((0..150).map(|_| dense_plan(&mut random, nodes)));
    }
    for plan in plans {
        for draw in [any_state, mostly_running, reached_state] {
            let state = draw(&mut random, &plan);
            let state = bytes(&mut random, &plan, &state, 2);
            check(&mut random, &plan, &state);
        }
    }
}

/// What the calls, one after another, return and leave.
fn made(plan: &Plan, state: &[u8], calls: &[Call]) -> (Vec<u32>, Vec<u8>) {
    let (plan, mut lent) = (plan.bytes(), state.to_vec());
    let returned = calls.iter().map(|call| make(call, &plan, &mut lent));
    (returned.collect(), lent)
}

/// A list of one task is its finish, whatever the number.
#[test]
fn list_of_one() {
    let mut counts = [0; 23];
    for_each_state(141, |random, plan, state| {
        let drawn = (0..3).map(|_| any_number(random, plan));
        for number in running(plan, state).into_iter().chain(drawn) {
            let by_list = made(plan, state, &[together(&[number])]);
            let single = made(plan, state, &[finish(number)]);
            assert_eq!(by_list, single, "{number} of\n{}", shown(plan));
            counts[single.0[0] as usize] += 1;
        }
    });
    for returned in [0, 17, 18, 22] {
        assert!(counts[returned] > 200, "{returned}: {}", counts[returned]);
    }
}

/// The orders of up to three tasks.
fn orders(tasks: &[usize]) -> Vec<Vec<usize>> {
    match *tasks {
        [a, b] => vec![vec![a, b], vec![b, a]],
        [a, b, c] => [
            [a, b, c],
            [a, c, b],
            [b, a, c],
            [b, c, a],
            [c, a, b],
            [c, b, a],
        ]
        .map(Vec::from)
        .to_vec(),
        _ => vec![tasks.to_vec()],
    }
}

/// Where the tasks of a list can be finished one by one in some order, they can be together, with
/// the same bytes, unless two leave a flag opposite ways. Where they can be together, any order in
/// which they can be one by one leaves the same.
#[test]
fn one_by_one() {
    let (mut alike, mut opposed, mut only_together) = (0, 0, 0);
    for_each_state(142, |_, plan, state| {
        let mut tasks = running(plan, state);
        tasks.truncate(4);
        for list in subsets(tasks).filter(|list| (2..=3).contains(&list.len())) {
            let (returned, after) = made(plan, state, &[together(&list)]);
            let mut some_order = false;
            for order in orders(&list) {
                let finishes: Vec<Call> = order.iter().map(|&task| finish(task)).collect();
                let (singles, left) = made(plan, state, &finishes);
                if singles.iter().all(|&returned| returned == 0) {
                    some_order = true;
                    assert!([0, 26].contains(&returned[0]), "{}", shown(plan));
                    assert!(returned[0] == 26 || left == after, "{}", shown(plan));
                }
            }
            alike += usize::from(some_order && returned[0] == 0);
            opposed += usize::from(some_order && returned[0] == 26);
            only_together += usize::from(!some_order && returned[0] == 0);
        }
    });
    println!("{alike} alike, {opposed} opposed, {only_together} only together");
    assert!(alike > 1_000 && opposed > 200 && only_together > 20);
}
