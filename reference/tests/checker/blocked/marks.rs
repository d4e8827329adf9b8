//! Marks of groups without their blocked branches, and of absent nodes.

use crate::{entries_blocking, plan, sample, verdict_blocking, CLEAR, DOOMED, OPEN};

const NONE: [[u8; 8]; 2] = [[0; 8]; 2];

/// At a blocked node and under it every mark is 0; a task elsewhere keeps its own.
#[test]
fn absent_nodes() {
    let plan = plan(
        "flags 1\n0 ROOT any-of\n1 GRP- all-of under 0\n2 A--- task 0 under 1 leaves 0-set\n\
         3 C--- task 0 under 1 needs 0-clear\n4 Z--- task 0 under 0 needs 0-set\norder 2 3\n",
    );
    let whole = [
        [[0, 0, 0, 0, 0, 0, 1, 0], [1, 0, 1, 0, 0, 0, 0, 0]],
        [[0, 0, 0, 0, 0, 0, 1, 1], [0, 0, 1, 1, 0, 0, 0, 0]],
        [[0; 8], [0, 0, 1, 1, 0, 0, 0, 0]],
        [[1, 1, 0, 0, 0, 0, 0, 0], [0; 8]],
        [[0; 8], [1, 1, 0, 0, 0, 0, 0, 0]],
    ];
    for (node, want) in whole.iter().enumerate() {
        assert_eq!(entries_blocking(&plan, &[], node), want, "{node}");
    }
    let z = [[0; 8], [1, 1, 0, 0, 0, 0, 0, 0]];
    for (node, want) in [z, NONE, NONE, NONE, z].iter().enumerate() {
        assert_eq!(entries_blocking(&plan, &[1], node), want, "{node}");
    }
    let group = whole[1];
    let others = [group, group, whole[2], whole[3], NONE];
    for (node, want) in others.iter().enumerate() {
        assert_eq!(entries_blocking(&plan, &[4], node), want, "{node}");
    }
    let verdicts = [&[][..], &[1], &[4]].map(|blocked| verdict_blocking(&plan, blocked));
    assert_eq!(verdicts, [OPEN, DOOMED, DOOMED]);
}

/// What may be becomes what must be, or is not any more.
#[test]
fn choices() {
    let choice = sample("restored-by-choice");
    let left_clear = [[0, 0, 1, 1, 0, 0, 0, 0], [0; 8]];
    assert_eq!(entries_blocking(&choice, &[4], 2), left_clear);
    assert_eq!(entries_blocking(&choice, &[4], 0), left_clear);
    assert_eq!(entries_blocking(&choice, &[3], 2), NONE);
    let doomed = [[0, 0, 0, 0, 0, 0, 1, 1], [0, 0, 1, 1, 0, 0, 0, 0]];
    assert_eq!(entries_blocking(&choice, &[3], 0), doomed);
}

/// An optional group keeps its branch without tasks: no must, whatever is blocked.
#[test]
fn optional_groups() {
    let plan = plan(
        "flags 1\n0 DROP optional\n1 A--- task 0 under 0 needs 0-clear leaves 0-set\n\
         2 Z--- task 0 under 0 holds 0-set leaves 0-set\n",
    );
    let a = [[1, 0, 0, 0, 0, 0, 0, 0], [0, 0, 1, 0, 0, 0, 0, 0]];
    let z = [[0; 8], [0, 0, 1, 0, 1, 0, 0, 0]];
    let both = [[1, 0, 0, 0, 0, 0, 0, 0], [0, 0, 1, 0, 1, 0, 0, 0]];
    assert_eq!(entries_blocking(&plan, &[], 0), both);
    assert_eq!(entries_blocking(&plan, &[2], 0), a);
    assert_eq!(entries_blocking(&plan, &[1], 0), z);
    assert_eq!(entries_blocking(&plan, &[1, 2], 0), NONE);
}

/// Absent tasks touch no flag, so that doom beside them stands; and they leave none opposite.
#[test]
fn tasks_that_count_no_more() {
    let beside = plan(
        "flags 1\n0 ROOT all-of\n1 D--- task 0 under 0 leaves 0-set\n\
         2 C--- task 0 under 0 needs 0-clear\n3 PICK any-of under 0\n\
         4 E--- task 0 under 3 leaves 0-clear\n5 BARE task 0 under 3\norder 1 2\n",
    );
    assert_eq!(verdict_blocking(&beside, &[]), OPEN);
    assert_eq!(verdict_blocking(&beside, &[4]), DOOMED);
    assert_eq!(verdict_blocking(&beside, &[5]), OPEN);
    let opposed = plan(
        "flags 1\n0 ROOT all-of\n1 A--- task 0 under 0 leaves 0-set\n2 DROP optional under 0\n\
         3 Z--- task 0 under 2 leaves 0-clear\n",
    );
    assert_eq!(verdict_blocking(&opposed, &[]), OPEN);
    assert_eq!(verdict_blocking(&opposed, &[3]), CLEAR);
    let held = plan(
        "flags 1\n0 ROOT all-of\n1 A--- task 0 under 0 leaves 0-set\n2 PICK any-of under 0\n\
         3 Z--- task 0 under 2 holds 0-clear leaves 0-set\n4 BARE task 0 under 2\n",
    );
    assert_eq!(verdict_blocking(&held, &[]), OPEN);
    assert_eq!(verdict_blocking(&held, &[3]), CLEAR);
    assert_eq!(verdict_blocking(&held, &[4]), OPEN);
}
