//! Opposed postconditions, 26, and broken inconditions, 22.

use reference::model::calls::Call;

use super::{check, finish, start, together, OPPOSED};
use crate::{make, plan, returns, sample, state, verdict, OPEN};

/// 02's trial: two tasks that leave a flag opposite ways.
#[test]
fn opposed_postconditions() {
    for plan in [plan(OPPOSED), sample("finish-together")] {
        assert_eq!(verdict(&plan), OPEN);
        let list = [start(1), start(2), together(&[1, 2])];
        assert_eq!(returns(&plan, &list), [0, 0, 26]);
        // One by one, or each as a list of its own, they end.
        let list = [start(1), start(2), finish(2), finish(1)];
        assert_eq!(returns(&plan, &list), [0; 4]);
        let list = [start(1), start(2), together(&[1]), together(&[2])];
        assert_eq!(returns(&plan, &list), [0; 4]);
    }
}

/// Any two tasks of the list, wherever they stand in it.
#[test]
fn opposed_anywhere_in_the_list() {
    let plan = plan(
        "flags 2\n0 ROOT all-of\n1 A--- task 0 under 0 leaves 0-set\n\
         2 B--- task 0 under 0 leaves 1-clear\n3 C--- task 0 under 0\n\
         4 D--- task 0 under 0 leaves 1-set\n5 Z--- task 0 under 0 leaves 0-clear\n",
    );
    let running = state(0, [0, 1, 1, 1, 1, 1], [0, 1, 2, 3, 4, 5]);
    let opposed: [&[usize]; 6] = [
        &[1, 5],
        &[2, 4],
        &[1, 3, 5],
        &[2, 3, 4],
        &[1, 2, 3, 5],
        &[1, 2, 3, 4, 5],
    ];
    check(&plan, &running, &opposed.map(|tasks| (tasks, 26)));
    let agreeing: [&[usize]; 4] = [&[1, 2, 3], &[1, 3, 4], &[2, 3, 5], &[3, 4, 5]];
    check(&plan, &running, &agreeing.map(|tasks| (tasks, 0)));
}

/// A holds the flag set and leaves it clear, Z leaves it clear: A's hold is tried only while A
/// runs.
#[test]
fn incondition_of_a_listed_task() {
    let plan = sample("incondition-broken");
    let running = state(1, [0, 1, 1], [0, 1, 2]);
    check(&plan, &running, &[(&[1, 2], 0), (&[1], 0), (&[2], 22)]);
    let mut lent = running;
    assert_eq!(make(&together(&[1, 2]), &plan, &mut lent), 0);
    assert_eq!(lent, state(0, [0, 2, 2], [0, 1, 2]));
    assert_eq!(make(&Call::Status, &plan, &mut lent), 128);
}

/// Only together do A and Z end: each leaves the opposite of what the other holds.
#[test]
fn ended_only_together() {
    let plan = plan(
        "flags 1\n0 ROOT all-of\n1 A--- task 0 under 0 holds 0-set leaves 0-clear\n\
         2 Z--- task 0 under 0 needs 0-set holds 0-set leaves 0-clear\n",
    );
    assert_eq!(verdict(&plan), OPEN);
    let mut lent = vec![7; 17];
    for (call, want, status) in [
        (Call::Fresh, 0, 129),
        (start(2), 21, 129),
        (start(1), 0, 129),
        (start(2), 0, 129),
        (finish(1), 22, 129),
        (finish(2), 22, 129),
        (together(&[1]), 22, 129),
        (together(&[2]), 22, 129),
        (together(&[1, 2]), 0, 128),
        (together(&[1, 2]), 18, 128),
    ] {
        assert_eq!(make(&call, &plan, &mut lent), want, "{call:?}");
        assert_eq!(make(&Call::Status, &plan, &mut lent), status, "{call:?}");
    }
    assert_eq!(lent, state(0, [0, 2, 2], [0, 1, 2]));
}

/// The flags that are held are those of every task still running, whatever its number.
#[test]
fn inconditions_of_others() {
    let plan = plan(
        "flags 2\n0 ROOT all-of\n1 A--- task 0 under 0 holds 0-set leaves 0-set\n\
         2 B--- task 0 under 0 leaves 0-clear\n3 C--- task 0 under 0 leaves 1-clear\n\
         4 D--- task 0 under 0 holds 1-set leaves 1-clear\n",
    );
    let places = [0, 1, 2, 3, 4];
    let running = state(3, [0, 1, 1, 1, 1], places);
    check(
        &plan,
        &running,
        &[
            (&[2], 22),
            (&[3], 22),
            (&[2, 3], 22),
            (&[2, 3, 4], 22),
            (&[1, 2], 26),
            (&[3, 4], 0),
            (&[1, 3], 22),
            (&[1, 4], 0),
        ],
    );
    // Done, or waiting, they hold nothing; and a hold is broken whatever the flag's value is.
    let done = state(3, [0, 2, 1, 1, 2], places);
    check(&plan, &done, &[(&[2, 3], 0)]);
    let waiting = state(3, [0, 0, 1, 1, 0], [0, 0, 1, 2, 0]);
    check(&plan, &waiting, &[(&[2, 3], 0)]);
    let clear = state(0, [0, 1, 1, 1, 1], places);
    check(&plan, &clear, &[(&[2], 22), (&[2, 3, 4], 22)]);
}
