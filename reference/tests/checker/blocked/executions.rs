//! The plan that remains against the whole one: its executions are those of the whole plan in which
//! nothing happens at an absent node.

use reference::model::blocked::Remaining;
use reference::model::format::Plan;
use reference::model::runs::{shown, shown_without, Shown};
use reference::tools::generate::dense_plan;
use reference::tools::random::Random;
use reference::tools::scenario::blocked::passing;

use crate::shown as text;

/// What is shown of a literal at a node that remains, in the plan that remains and in the whole one.
fn for_each_entry(seed: u64, mut check: impl FnMut(&Plan, &[usize], &Shown, &Shown)) {
    let mut random = Random::new(seed);
    let sizes = (2..).zip([100, 1_000, 4_000, 5_000, 3_000, 1_000, 200]);
    let nodes = sizes.flat_map(|(nodes, plans)| vec![nodes; plans]);
    for plan in nodes
        .map(|nodes| dense_plan(&mut random, nodes))
        .collect::<Vec<_>>()
    {
        let blocked = passing(&mut random, &plan);
        let remaining = Remaining::new(&plan, &blocked).ok().unwrap();
        let absent = remaining.absent();
        let numbers = remaining.numbers.iter().enumerate();
        for (node, &number) in numbers.filter(|_| !absent.is_empty()) {
            let left = shown(&remaining.plan, node);
            let whole = shown_without(&plan, number, &absent);
            let entries = left.iter().zip(&whole);
            entries.for_each(|(left, whole)| check(&plan, &blocked, left, whole));
        }
    }
}

/// Marks 0 to 5, whether the literal is clobbered, and whether two tasks run at once that leave it
/// opposite ways.
#[test]
fn same_as_without_events_at_absent_nodes() {
    let (mut entries, mut set) = (0, [0; 7]);
    for_each_entry(201, |plan, blocked, left, whole| {
        let [marks @ .., clobbered] = left.marks;
        let place = || format!("{blocked:?} of\n{}", text(plan));
        assert_eq!(marks, whole.marks[..6], "{}", place());
        let in_whole = whole.clobbered || whole.opposed_at_once;
        assert_eq!(clobbered, in_whole, "{}", place());
        entries += 1;
        for (count, mark) in set.iter_mut().zip(left.marks) {
            *count += usize::from(mark);
        }
    });
    println!("{entries} entries, of which so many have each mark: {set:?}");
    assert!(set.iter().all(|&count| count > 300));
}
