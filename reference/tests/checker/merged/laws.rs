//! On random plans: what becomes of each of two plans in the merged one.

use reference::model::calls::Call;
use reference::model::format::{Plan, POSTCONDITION, PRECONDITION};
use reference::model::members::Change::Include;
use reference::tools::generate::pairs::{agree, partner};
use reference::tools::generate::{any_plan, dense_plan, LIMITS};
use reference::tools::random::Random;

use super::{merged, returned};
use crate::{entries, fields, make, verdict, CLEAR};

/// Small plans, and some of any size, with others beside them that start alike.
fn pairs(seed: u64) -> impl Iterator<Item = [Plan; 2]> {
    let mut random = Random::new(seed);
    let drawn = (0..300).map(move |at| {
        let nodes = 1 + at % 9;
        let [one, mut other] = match at % 20 {
            0 => {
                let plan = any_plan(&mut random, LIMITS);
                [partner(&mut random, &plan), plan]
            }
            _ => [nodes, 10 - nodes].map(|nodes| dense_plan(&mut random, nodes)),
        };
        agree(&one, &mut other);
        [one, other]
    });
    drawn.filter(|[one, other]| returned(&one.bytes(), &other.bytes()) == 256)
}

/// The merged plan of two.
fn joined([first, second]: &[Plan; 2]) -> Plan {
    fields(&merged(&first.bytes(), &second.bytes()))
}

/// Where their roots are in the merged plan.
fn roots([first, _]: &[Plan; 2]) -> [usize; 2] {
    [1, 1 + first.nodes.len()]
}

/// Under the new root there are the two old ones, and what is under each of them, numbered anew, is
/// the plan that it was.
#[test]
fn both_are_in_it() {
    for plans in pairs(281) {
        let all = joined(&plans);
        let roots = roots(&plans);
        assert_eq!(all.children(0).collect::<Vec<_>>(), roots);
        for (plan, root) in plans.iter().zip(roots) {
            let nodes = 0..all.nodes.len();
            let under: Vec<usize> = nodes.filter(|&node| all.is_under(node, root)).collect();
            let found = all.numbered(&under);
            assert_eq!(found.nodes, plan.nodes);
            assert_eq!(found.conditions, plan.conditions);
            assert_eq!(found.orders, plan.orders);
            for flag in 0..usize::from(plan.flags) {
                assert_eq!(all.starts_set(flag), plan.starts_set(flag));
            }
        }
    }
}

/// The summary of an old root is what it was, and all zero for flags that its plan had not.
#[test]
fn summaries_stay() {
    for plans in pairs(282) {
        let all = joined(&plans).bytes();
        for (plan, root) in plans.iter().zip(roots(&plans)) {
            let (found, want) = (entries(&all, root), entries(&plan.bytes(), 0));
            let (own, others) = found.split_at(want.len());
            assert_eq!(own, want);
            assert!(others.iter().all(|entry| *entry == [0; 8]));
        }
    }
}

/// With one of the two aboard alone the answer is that for its plan, and with both that for all.
#[test]
fn members_of_it() {
    for plans in pairs(283) {
        let all = joined(&plans).bytes();
        let include = |root, list: &mut [u8]| make(&Call::Change(Include(root)), &all, list);
        let [first, second] = roots(&plans);
        for (one, other, plan) in [(first, second, &plans[0]), (second, first, &plans[1])] {
            let mut list = vec![0; usize::from(all[0])];
            assert_eq!(include(one, &mut list), verdict(&plan.bytes()));
            assert_eq!(include(other, &mut list), verdict(&all));
        }
    }
}

/// What is needed in a CLEAR plan is needed from outside, or it is left in the plan too. So it says
/// the same of two plans to ask for needs from outside alone, since leavings are asked too.
#[test]
fn needs_of_clear_plans() {
    let mut counts = [0; 2];
    for plan in pairs(286).flatten() {
        if verdict(&plan.bytes()) != CLEAR {
            continue;
        }
        let from_outside = entries(&plan.bytes(), 0);
        for (literal, entry) in plan.literals().zip(from_outside) {
            let has = |place| plan.tasks().any(|task| plan.has(task, place, literal));
            if has(PRECONDITION) {
                assert!(entry[0] == 1 || has(POSTCONDITION), "{plan:?}");
                counts[usize::from(entry[0])] += 1;
            }
        }
    }
    println!("not from outside, from outside: {counts:?}");
    assert!(counts.iter().all(|&count| count >= 10));
}

/// The verdict is the same whichever plan is first, and of three whichever two are merged first.
#[test]
fn in_any_order() {
    let mut random = Random::new(284);
    let mut met = [0; 3];
    for [one, other] in pairs(285) {
        let mut third = dense_plan(&mut random, 3);
        agree(&one, &mut third);
        agree(&other, &mut third);
        let [one, other, third] = [one, other, third].map(|plan| plan.bytes());
        let (first, last) = (merged(&one, &other), merged(&other, &one));
        assert_eq!(verdict(&first), verdict(&last));
        if returned(&first, &third) == 256 {
            let found = verdict(&merged(&first, &third));
            assert_eq!(found, verdict(&merged(&one, &merged(&other, &third))));
            met[found as usize - 128] += 1;
        }
    }
    println!("CLEAR, DOOMED, OPEN: {met:?}");
    assert!(met.iter().all(|&count| count >= 3));
}
