//! On random small plans: marks by rules against marks by runs, verdicts against all lists of
//! calls.

use reference::model::format::{Plan, Sizes, POSTCONDITION};
use reference::model::marks::marks;
use reference::model::runs;
use reference::model::verdict::{verdict, Verdict};
use reference::tools::generate::{dense_plan, plan, LIMITS, SHAPES};
use reference::tools::random::Random;
use reference::tools::search::search;

use crate::shown;

/// Random plans: the more nodes, the fewer.
fn for_each_plan(seed: u64, mut check: impl FnMut(&Plan)) {
    let mut random = Random::new(seed);
    let plans = [300, 2_000, 8_000, 10_000, 8_000, 4_000, 1_500, 400, 100, 20];
    for (nodes, plans) in (1..).zip(plans) {
        for _ in 0..plans {
            check(&dense_plan(&mut random, nodes));
        }
    }
}

/// Marks 0 to 6 of every node and literal; mark 7 where runs bear it out, and only with mark 6.
/// Opposed postconditions are those of tasks that some run has running at once.
#[test]
fn rules_and_runs() {
    let mut set = [0; 8];
    let (mut entries, mut only_opposed) = (0, 0);
    for_each_plan(31, |plan| {
        for (node, by_rules) in marks(plan).iter().enumerate() {
            let by_runs = runs::shown(plan, node);
            assert_eq!(by_rules.len(), by_runs.len());
            for (entry, (rules, runs)) in by_rules.iter().zip(&by_runs).enumerate() {
                let place = || format!("entry {entry} of node {node} in\n{}", shown(plan));
                let rules = rules.in_order();
                assert_eq!(rules[..7], runs.marks, "{}", place());
                assert!(
                    !rules[7] || rules[6] && runs.always_clobbered,
                    "{}",
                    place()
                );
                let flag = (entry / 2) as u16;
                let opposed = plan.has_opposed(node, flag);
                assert_eq!(runs.opposed_at_once, opposed, "{}", place());
                entries += 1;
                only_opposed += usize::from(opposed && !runs.clobbered);
                for (count, value) in set.iter_mut().zip(rules) {
                    *count += usize::from(value);
                }
            }
        }
    });
    println!("{entries} entries, of which so many have each mark: {set:?}");
    println!("{only_opposed} have mark 6 by opposed postconditions alone");
    assert!(set.iter().all(|&count| count > 1_000));
    assert!(only_opposed > 1_000);
}

/// CLEAR exactly when no call of any list returns 21, 22 or 26; DOOMED never completes.
#[test]
fn verdicts_and_lists() {
    let mut verdicts = [0; 3];
    let mut only_opposed = 0;
    for_each_plan(32, |plan| {
        let verdict = verdict(plan);
        let found = search(plan, &[]);
        assert_eq!(
            verdict == Verdict::Clear,
            found.is_clear(),
            "{}",
            shown(plan)
        );
        assert!(
            verdict != Verdict::Doomed || !found.completable,
            "{}",
            shown(plan)
        );
        verdicts[verdict as usize] += 1;
        only_opposed += usize::from(found.opposed && !found.conflict);
    });
    println!("CLEAR, DOOMED, OPEN: {verdicts:?}, by 26 alone not CLEAR: {only_opposed}");
    assert!(verdicts.iter().all(|&count| count > 3_000));
    assert!(only_opposed > 150);
}

/// Plans whose tasks have postconditions alone: 26 is all that can keep them from CLEAR.
#[test]
fn postconditions_alone() {
    let mut random = Random::new(34);
    let mut verdicts = [0; 3];
    for nodes in 4..=8 {
        for _ in 0..400 {
            let mut plan = dense_plan(&mut random, nodes);
            plan.conditions.retain(|c| c.place() == POSTCONDITION);
            let mut flags = 0..plan.flags;
            let want = match flags.any(|flag| plan.has_opposed(0, flag)) {
                true => Verdict::Open,
                false => Verdict::Clear,
            };
            let found = search(&plan, &[]);
            assert_eq!(verdict(&plan), want, "{}", shown(&plan));
            assert_eq!(found.opposed, want == Verdict::Open, "{}", shown(&plan));
            assert!(!found.conflict && found.completable, "{}", shown(&plan));
            verdicts[want as usize] += 1;
        }
    }
    println!("CLEAR, DOOMED, OPEN: {verdicts:?}");
    assert!(verdicts[0] > 1_000 && verdicts[2] > 300);
}

/// On plans too large to search: a must comes with its may, the verdict is only one.
#[test]
fn large_plans() {
    let mut random = Random::new(33);
    for shape in SHAPES {
        for orders in [0, 100, 512] {
            let sizes = Sizes { orders, ..LIMITS };
            let plan = plan(&mut random, sizes, shape);
            for entry in marks(&plan).concat() {
                let marks = entry.in_order();
                assert!(!marks[1] || marks[0], "must need");
                assert!(!marks[3] || marks[2], "must leave");
                assert!(!marks[5] || marks[4], "must hold");
                assert!(!marks[7] || marks[6], "doom");
            }
            verdict(&plan);
        }
    }
}
