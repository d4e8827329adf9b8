//! The trials of request 108: 01's choice book, and groups that lose their branches.

use reference::model::calls::Call;

use super::{finish, skip, start, together, COMPLETE, NESTED, UNFINISHED};
use crate::{make_blocking, plan, returns_blocking, sample, verdict_blocking, CLEAR, DOOMED, OPEN};

/// A leaves the flag set, then PICK is C, which leaves it clear, or NONE, without conditions; then Z
/// needs it clear.
#[test]
fn choice_of_01() {
    let choice = sample("restored-by-choice");
    assert_eq!(verdict_blocking(&choice, &[]), OPEN);
    assert_eq!(verdict_blocking(&choice, &[4]), CLEAR);
    assert_eq!(verdict_blocking(&choice, &[3]), DOOMED);
    assert_eq!(verdict_blocking(&choice, &[3, 4]), 29);
    let refused: [&[usize]; 12] = [
        &[0],
        &[1],
        &[2],
        &[5],
        &[6],
        &[128],
        &[usize::MAX],
        &[4, 4],
        &[4, 3],
        &[0, 4],
        &[3, 4, 128],
        &[4 + (1 << 32)],
    ];
    for blocked in refused {
        assert_eq!(verdict_blocking(&choice, blocked), 28, "{blocked:?}");
    }
    // The run that is left cannot go wrong; NONE is out, and Z waits for C.
    let list = [start(1), finish(1), start(4), start(5), start(3), finish(3)];
    assert_eq!(returns_blocking(&choice, &[4], &list), [0, 0, 19, 20, 0, 0]);
    // With C blocked Z meets 21.
    let list = [start(1), finish(1), start(3), start(4), finish(4), start(5)];
    assert_eq!(returns_blocking(&choice, &[3], &list), [0, 0, 19, 0, 0, 21]);
}

/// B without its order: RADI needs what CAST breaks, SATL does not.
#[test]
fn b_without_order() {
    let plan = sample("b-without-order");
    assert_eq!(verdict_blocking(&plan, &[]), OPEN);
    assert_eq!(verdict_blocking(&plan, &[3]), CLEAR);
    assert_eq!(verdict_blocking(&plan, &[4]), OPEN);
    let list = [start(1), start(3), start(4), finish(1), start(3), finish(4)];
    assert_eq!(returns_blocking(&plan, &[3], &list), [0, 19, 0, 0, 19, 0]);
}

/// The rows of `samples/README.md`: HEAR asks for quiet, which PUMP breaks.
#[test]
fn sample_of_a_noisy_branch() {
    let noisy = sample("branch-blocked");
    let verdicts: [(&[usize], u32); 11] = [
        (&[], OPEN),
        (&[4], CLEAR),
        (&[4, 8], CLEAR),
        (&[3], OPEN),
        (&[8], OPEN),
        (&[3, 4], 29),
        (&[0], 28),
        (&[5], 28),
        (&[9], 28),
        (&[4, 4], 28),
        (&[8, 4], 28),
    ];
    for (blocked, want) in verdicts {
        assert_eq!(verdict_blocking(&noisy, blocked), want, "{blocked:?}");
    }
    assert_eq!(
        returns_blocking(&noisy, &[], &[start(1), start(5)]),
        [0, 22]
    );
    let list = [start(5), start(6), start(4), finish(5), skip(4)];
    let returned = returns_blocking(&noisy, &[4], &list);
    assert_eq!(returned, [19, 19, 17, 18, 27]);
    let list = [start(1), start(3), start(8)];
    assert_eq!(returns_blocking(&noisy, &[4], &list), [0; 3]);
    let list = [
        start(8),
        start(1),
        start(3),
        together(&[1, 3]),
        Call::Status,
        skip(7),
    ];
    let returned = returns_blocking(&noisy, &[4, 8], &list);
    assert_eq!(returned, [19, 0, 0, 0, UNFINISHED, 0]);
}

/// An optional group without branches is complete by its skip alone.
#[test]
fn optional_without_branches() {
    let text = "flags 1\n0 ROOT all-of\n1 DROP optional under 0\n2 A--- task 0 under 1\n\
        3 B--- task 0 under 1 needs 0-set\n4 T--- task 0 under 0\norder 1 4\n";
    let plan = plan(text);
    assert_eq!(verdict_blocking(&plan, &[2, 3]), CLEAR);
    let mut lent = vec![7; 23 + 2];
    for (call, want, status) in [
        (Call::Fresh, 0, UNFINISHED),
        (start(4), 20, UNFINISHED),
        (start(2), 19, UNFINISHED),
        (start(3), 19, UNFINISHED),
        (skip(1), 0, UNFINISHED),
        (skip(1), 18, UNFINISHED),
        (start(2), 19, UNFINISHED),
        (start(4), 0, UNFINISHED),
        (together(&[4]), 0, COMPLETE),
    ] {
        let returned = make_blocking(&call, &plan, &[2, 3], &mut lent);
        assert_eq!(returned, want, "{call:?}");
        let progress = make_blocking(&Call::Status, &plan, &[2, 3], &mut lent);
        assert_eq!(progress, status, "{call:?}");
    }
    assert_eq!(lent[23..], [7; 2]);
}

/// As the root: nothing can be done but skip it.
#[test]
fn optional_root_without_branches() {
    let plan = plan("flags 1\n0 DROP optional\n1 A--- task 0 under 0 needs 0-set\n");
    assert_eq!(verdict_blocking(&plan, &[]), OPEN);
    assert_eq!(verdict_blocking(&plan, &[1]), CLEAR);
    let list = [start(1), skip(0), skip(0)];
    assert_eq!(returns_blocking(&plan, &[1], &list), [19, 0, 18]);
}

/// A blocked node below a blocked node changes nothing, and 29 does not ask there.
#[test]
fn blocked_below_blocked() {
    let plan = plan(NESTED);
    for blocked in [&[3][..], &[3, 6], &[3, 8], &[3, 8, 9], &[3, 6, 8, 9]] {
        assert_eq!(verdict_blocking(&plan, blocked), CLEAR, "{blocked:?}");
        let list = [
            start(1),
            finish(1),
            start(8),
            skip(5),
            start(10),
            finish(10),
        ];
        let returned = returns_blocking(&plan, blocked, &list);
        assert_eq!(returned, [0, 0, 19, 19, 0, 0], "{blocked:?}");
    }
    assert_eq!(verdict_blocking(&plan, &[8, 9]), 29);
    // A blocked any-of group, of which all branches are blocked too.
    let nested = crate::plan(
        "flags 1\n0 ROOT any-of\n1 SUB- any-of under 0\n2 A--- task 0 under 1\n\
         3 B--- task 0 under 1\n4 C--- task 0 under 0\n",
    );
    assert_eq!(verdict_blocking(&nested, &[1, 2, 3]), CLEAR);
    assert_eq!(verdict_blocking(&nested, &[2, 3]), 29);
    assert_eq!(verdict_blocking(&nested, &[1, 4]), 29);
    assert_eq!(verdict_blocking(&nested, &[2, 3, 4]), 29);
}
