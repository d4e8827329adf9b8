//! Random lists of calls, against returns and states worked out anew.

use std::collections::BTreeMap;

use reference::model::blocked::Remaining;
use reference::model::calls::Call;
use reference::model::format::{Plan, Sizes};
use reference::tools::generate::{any_plan, dense_plan, LIMITS};
use reference::tools::random::Random;
use reference::tools::scenario::blocked::{calls as under_list, passing};
use reference::tools::scenario::lists::{list, long_list, replay};

use crate::past::Past;
use crate::{by_both, make_blocking};

/// How often each call returned what.
type Counts = BTreeMap<(&'static str, u32), usize>;

/// Replays a list with nothing blocked and counts its returns.
fn check(random: &mut Random, plan: &Plan, list: &[Call], counts: &mut Counts) {
    check_blocking(random, plan, &[], list, counts);
}

/// Replays a list with these nodes blocked and counts its returns. The bytes after the state must
/// stay.
fn check_blocking(
    random: &mut Random,
    plan: &Plan,
    blocked: &[usize],
    list: &[Call],
    counts: &mut Counts,
) {
    let state_len = 8 + 3 * plan.nodes.len();
    let extra = random.below(4);
    let lent = random.bytes(state_len + extra);
    let bytes = plan.bytes();
    let afters = replay(&bytes, blocked, list, lent.clone(), by_both);
    let mut past = Past::new(plan, blocked);
    assert_eq!(afters[0].returned, 0);
    assert_eq!(afters[0].lent, [&past.state(), &lent[state_len..]].concat());
    for (call, after) in list.iter().zip(&afters[1..]) {
        let want = past.returns(call);
        assert_eq!(after.returned, want, "{}", past.at(call));
        *counts.entry((call.name(), want)).or_default() += 1;
        let state = past.state();
        let left = [&state, &lent[state_len..]].concat();
        assert_eq!(after.lent, left, "{}", past.at(call));
        let status = if past.complete()[0] { 128 } else { 129 };
        let found = make_blocking(&Call::Status, &bytes, blocked, &mut after.lent.clone());
        assert_eq!(found, status, "{}", past.at(call));
    }
}

#[test]
fn returns_and_states() {
    let mut random = Random::new(41);
    let mut counts = Counts::new();
    for nodes in 1..=10 {
        for _ in 0..600 {
            let plan = dense_plan(&mut random, nodes);
            let drawn = list(&mut random, &plan, 4 * nodes);
            check(&mut random, &plan, &drawn, &mut counts);
        }
    }
    let medium = Sizes {
        nodes: 30,
        conditions: 60,
        orders: 30,
        flags: 64,
    };
    for _ in 0..200 {
        let plan = any_plan(&mut random, medium);
        let drawn = list(&mut random, &plan, 60);
        check(&mut random, &plan, &drawn, &mut counts);
    }
    for _ in 0..3 {
        let plan = any_plan(&mut random, LIMITS);
        let drawn = list(&mut random, &plan, 200);
        check(&mut random, &plan, &drawn, &mut counts);
    }
    // All 127 tasks start and finish.
    let flat = Plan::flat(1, 128);
    let long = long_list(&mut random, &flat);
    check(&mut random, &flat, &long, &mut counts);
    println!("{counts:?}");
    met(counts);
}

/// The same with blocked nodes: the whole plan is asked, and whether a node is absent.
#[test]
fn returns_and_states_with_blocked_nodes() {
    let mut random = Random::new(42);
    let mut counts = Counts::new();
    let mut plans: Vec<Plan> = Vec::new();
    for nodes in 3..=10 {
        plans.extend((0..1_000).map(|_| dense_plan(&mut random, nodes)));
    }
    plans.extend((0..3).map(|_| any_plan(&mut random, LIMITS)));
    for plan in plans {
        let blocked = passing(&mut random, &plan);
        let remaining = Remaining::new(&plan, &blocked).unwrap();
        let calls = random.pick(&[20, 30]);
        let drawn = match random.below(3) {
            0 => long_list(&mut random, &remaining.plan),
            _ => list(&mut random, &remaining.plan, calls),
        };
        let drawn = under_list(&mut random, &remaining, drawn);
        check_blocking(&mut random, &plan, &blocked, &drawn, &mut counts);
    }
    println!("{counts:?}");
    met(counts);
}

/// Each return was met often enough, and there were no others.
fn met(mut counts: Counts) {
    let accepted = ["start", "finish", "skip"].map(|name| counts[&(name, 0)]);
    assert!(accepted.iter().sum::<usize>() > 10_000);
    for returned in 17..=22 {
        let of = |name| counts.get(&(name, returned)).unwrap_or(&0);
        assert!(of("start") + of("finish") > 300, "{returned} is too rare");
    }
    for (name, returns) in [
        ("start", &[0, 17, 18, 19, 20, 21, 22][..]),
        ("finish", &[0, 17, 18, 22]),
        ("finish together", &[0, 17, 18, 22, 25, 26]),
        ("skip", &[0, 18, 19, 20, 27]),
    ] {
        for &returned in returns {
            let count = counts.remove(&(name, returned)).unwrap_or(0);
            assert!(count > 100, "{name} returned {returned} {count} times");
        }
    }
    assert_eq!(counts, Counts::new(), "other returns");
}
