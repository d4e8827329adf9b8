//! Calls at blocked nodes and under them, and at the others.

use super::{check, finish, skip, start, together, COMPLETE, NESTED, UNFINISHED};
use crate::{make_blocking, plan, returns_blocking, state};
use reference::model::calls::Call;

const NODES: usize = 14;

fn fresh() -> Vec<u8> {
    state(0, [0; NODES], [0; NODES])
}

/// With GRP blocked: its tasks are tasks, its groups groups.
#[test]
fn at_and_under_a_blocked_group() {
    let plan = plan(NESTED);
    // Though A is not done yet, which would be 20.
    for task in [4, 6, 8, 9] {
        check(
            &plan,
            &[3],
            &fresh(),
            &[(start(task), 19), (finish(task), 18)],
        );
        check(&plan, &[3], &fresh(), &[(skip(task), 27)]);
        check(&plan, &[3], &fresh(), &[(together(&[task]), 18)]);
    }
    for group in [3, 5, 7] {
        check(
            &plan,
            &[3],
            &fresh(),
            &[(start(group), 17), (finish(group), 17)],
        );
        check(&plan, &[3], &fresh(), &[(together(&[group]), 17)]);
    }
    let skips = [(skip(5), 19), (skip(3), 27), (skip(7), 27), (skip(11), 0)];
    check(&plan, &[3], &fresh(), &skips);
    // F, the other branch, is there.
    check(&plan, &[3], &fresh(), &[(start(10), 20), (finish(10), 18)]);
    let list = [
        start(1),
        finish(1),
        start(4),
        skip(5),
        start(10),
        finish(10),
    ];
    let returned = returns_blocking(&plan, &[3], &list);
    assert_eq!(returned, [0, 0, 19, 19, 0, 0]);
}

/// With tasks blocked, and an optional group of which they are the branches.
#[test]
fn at_blocked_tasks() {
    let plan = plan(NESTED);
    let blocked = [6, 8, 12, 13];
    for task in blocked {
        check(
            &plan,
            &blocked,
            &fresh(),
            &[(start(task), 19), (finish(task), 18)],
        );
    }
    // DROP and MAY can be skipped; PICK is after A.
    check(&plan, &blocked, &fresh(), &[(skip(11), 0), (skip(5), 20)]);
    let list = [
        start(1),
        finish(1),
        start(4),
        start(8),
        start(9),
        start(6),
        together(&[4, 9]),
        skip(5),
        start(10),
    ];
    let returned = returns_blocking(&plan, &blocked, &list);
    assert_eq!(returned, [0, 0, 0, 19, 0, 19, 0, 0, 19]);
}

/// A blocked optional group, which is a branch of another choice.
#[test]
fn at_a_blocked_optional_group() {
    let plan = plan(
        "flags 1\n0 PICK any-of\n1 DROP optional under 0\n2 A--- task 0 under 1\n\
         3 B--- task 0 under 0\n4 C--- task 0 under 0 needs 0-set\n",
    );
    let fresh = state(0, [0; 5], [0; 5]);
    check(
        &plan,
        &[],
        &fresh,
        &[(skip(1), 0), (start(2), 0), (start(4), 21)],
    );
    let rows = [
        (skip(1), 19),
        (start(2), 19),
        (start(1), 17),
        (start(4), 21),
    ];
    check(&plan, &[1], &fresh, &rows);
    check(&plan, &[2], &fresh, &[(skip(1), 0), (start(2), 19)]);
    // 19 before 21, and whether or not another branch is begun.
    check(&plan, &[1, 4], &fresh, &[(start(4), 19), (start(3), 0)]);
    let begun = state(0, [0, 0, 0, 1, 0], [0, 0, 0, 1, 0]);
    check(
        &plan,
        &[1, 4],
        &begun,
        &[(start(4), 19), (skip(1), 19), (finish(3), 0)],
    );
}

/// Finishes together: 25 and 17 of the whole list come before 18 of a blocked task, 26 and 22 after.
#[test]
fn lists_of_tasks() {
    let text = "flags 1\n0 ROOT all-of\n1 A--- task 0 under 0 leaves 0-set\n\
        2 B--- task 0 under 0 leaves 0-clear\n3 H--- task 0 under 0 holds 0-set leaves 0-set\n\
        4 PICK any-of under 0\n5 C--- task 0 under 4\n6 D--- task 0 under 4 leaves 0-clear\n";
    let running = state(0, [0, 1, 1, 1, 0, 1, 0], [0, 1, 2, 3, 0, 4, 0]);
    let rows: [(&[usize], u32); 12] = [
        (&[6], 18),
        (&[1, 6], 18),
        (&[1, 2, 6], 18),
        (&[2, 6], 18),
        (&[5, 6], 18),
        (&[6, 7], 17),
        (&[4, 6], 17),
        (&[6, 6], 25),
        (&[6, 1], 25),
        (&[1, 2], 26),
        (&[2, 5], 22),
        (&[1, 5], 0),
    ];
    let rows = rows.map(|(tasks, want)| (together(tasks), want));
    check(&plan(text), &[6], &running, &rows);
}

/// The byte and the place of a start are those of the node's own number.
#[test]
fn written_bytes() {
    let plan = plan(NESTED);
    let mut lent = fresh();
    lent.extend([7, 7]);
    let written = |statuses: &[(usize, u8)], places: &[(usize, u8)]| {
        let (mut bytes, mut at) = ([0; NODES], [0; NODES]);
        statuses.iter().for_each(|&(node, byte)| bytes[node] = byte);
        places.iter().for_each(|&(node, place)| at[node] = place);
        [&state(0, bytes, at)[..], &[7, 7]].concat()
    };
    for (call, after) in [
        (start(12), written(&[(12, 1)], &[(12, 1)])),
        (start(1), written(&[(1, 1), (12, 1)], &[(1, 2), (12, 1)])),
        (
            together(&[1, 12]),
            written(&[(1, 2), (12, 2)], &[(1, 2), (12, 1)]),
        ),
        (
            start(10),
            written(&[(1, 2), (10, 1), (12, 2)], &[(1, 2), (10, 3), (12, 1)]),
        ),
        (
            finish(10),
            written(&[(1, 2), (10, 2), (12, 2)], &[(1, 2), (10, 3), (12, 1)]),
        ),
    ] {
        let before = make_blocking(&Call::Status, &plan, &[3, 13], &mut lent);
        assert_eq!(before, UNFINISHED);
        assert_eq!(
            make_blocking(&call, &plan, &[3, 13], &mut lent),
            0,
            "{call:?}"
        );
        assert_eq!(lent, after, "{call:?}");
    }
    let end = make_blocking(&Call::Status, &plan, &[3, 13], &mut lent);
    assert_eq!(end, COMPLETE);
}
