//! Merged plans worked out by hand, and what the answer for them is.

use super::{merge, merged, pair};
use crate::{below, fields, listed, plan, sample, shown, verdict, CLEAR, DOOMED, OPEN};

/// These bytes are written to an output of their length and to a longer one, and nothing to one
/// that is a byte shorter.
#[track_caller]
fn check(first: &[u8], second: &[u8], want: &[u8]) {
    let (len, accepted) = (want.len(), 256 + want.len() as u32);
    for (lent, returned, written) in [
        (0, 15, &[][..]),
        (len - 1, 15, &[]),
        (len, accepted, want),
        (len + 1, accepted, want),
        (len + 900, accepted, want),
    ] {
        let out = vec![7; lent];
        let after = merge(first, second, &out);
        assert_eq!(after.returned, returned, "{lent} bytes lent");
        let kept = &out[written.len()..];
        assert_eq!(after.out, [written, kept].concat(), "{lent} bytes lent");
    }
}

/// One task, which has flag 8 besides B's flags and needs it set.
fn lone() -> Vec<u8> {
    plan("flags 9\nstart 8\n0 LONE task 300 needs 8-set leaves 8-clear\n")
}

/// B and a lone task. Another program made the same bytes.
#[test]
fn b_and_a_task() {
    let bytes = [
        &[7, 0, 10, 0, 1, 0, 9, 0][..], // sizes
        &[0, 1, 0, 0, 0, 0, 0, 0],      // flag 8 is set
        b"HULLMOORCASTCOMSRADISATLLONE",
        &[255, 1, 0, 0],                        // HULL
        &[0, 1, 0, 0, 1, 0, 12, 0, 1, 2, 0, 0], // MOOR, CAST, COMS
        &[3, 0, 3, 0, 3, 0, 5, 0],              // RADI, SATL
        &[0, 0, 44, 1],                         // LONE
        &[2, 2, 2, 4, 4, 4, 5, 5, 6, 6],        // the conditions' nodes
        &[0, 0, 192, 0, 0, 1],                  // CAST needs, holds, leaves flag 0
        &[0, 0, 193, 0, 1, 1, 193, 0, 1, 1],    // RADI and SATL
        &[72, 0, 8, 1],                         // LONE needs and leaves flag 8
        &[2],                                   // CAST before
        &[3],                                   // COMS
    ]
    .concat();
    check(&sample("b"), &lone(), &bytes);
    let lines = "CLEAR 300\nRADI 12\nSATL 12\nCAST 0\nLONE 0\n";
    assert_eq!(listed(&bytes), lines);
}

/// The other way round.
#[test]
fn a_task_and_b() {
    let bytes = [
        &[7, 0, 10, 0, 1, 0, 9, 0][..],
        &[0, 1, 0, 0, 0, 0, 0, 0],
        b"HULLLONEMOORCASTCOMSRADISATL",
        &[255, 1, 0, 0],
        &[0, 0, 44, 1],
        &[0, 1, 0, 0, 2, 0, 12, 0, 2, 2, 0, 0],
        &[4, 0, 3, 0, 4, 0, 5, 0],
        &[1, 1, 3, 3, 3, 5, 5, 5, 6, 6],
        &[72, 0, 8, 1],
        &[0, 0, 192, 0, 0, 1],
        &[0, 0, 193, 0, 1, 1, 193, 0, 1, 1],
        &[3],
        &[4],
    ]
    .concat();
    check(&lone(), &sample("b"), &bytes);
    assert_eq!(verdict(&bytes), CLEAR);
}

/// The smallest: two bare tasks.
#[test]
fn two_bare_tasks() {
    let bytes = [
        &[3, 0, 0, 0, 0, 0, 1, 0][..],
        &[0, 0, 0, 0, 0, 0, 0, 0],
        b"HULLTASKTASK",
        &[255, 1, 0, 0, 0, 0, 0, 0, 0, 0, 0, 0],
    ]
    .concat();
    let task = sample("one-task");
    check(&task, &task, &bytes);
    assert_eq!(verdict(&bytes), CLEAR);
}

const B_TWICE: &str = "flags 2
0 HULL all-of
1 MOOR all-of under 0
2 CAST task 12 under 1 needs 0-clear holds 0-set leaves 0-clear
3 COMS any-of under 1
4 RADI task 3 under 3 needs 0-clear holds 1-set leaves 1-clear
5 SATL task 5 under 3 holds 1-set leaves 1-clear
6 MOOR all-of under 0
7 CAST task 12 under 6 needs 0-clear holds 0-set leaves 0-clear
8 COMS any-of under 6
9 RADI task 3 under 8 needs 0-clear holds 1-set leaves 1-clear
10 SATL task 5 under 8 holds 1-set leaves 1-clear
order 2 3
order 7 8
";

/// B with itself: one CAST holds set what the other needs clear, and no order says which is first.
#[test]
fn b_twice() {
    let b = sample("b");
    let bytes = plan(B_TWICE);
    check(&b, &b, &bytes);
    assert_eq!((bytes.len(), verdict(&bytes)), (16 + 88 + 48 + 4, OPEN));
    let lines = "OPEN 17\nRADI 12\nRADI 12\nSATL 12\nSATL 12\nCAST 0\nCAST 0\n";
    assert_eq!(listed(&bytes), lines);
}

/// Roots of every kind, and orders on each side of the shift.
#[test]
fn roots_of_every_kind() {
    let choice = "flags 1\n0 PICK any-of\n1 ONE- task 1 under 0\n2 TWO- task 2 under 0\n";
    let dropped = "flags 3\n0 DROP optional\n1 GRP- all-of under 0\n2 A--- task 1 under 1\n\
         3 Z--- task 256 under 1 leaves 2-set\norder 2 3\n";
    let want = "flags 3\n0 HULL all-of\n1 DROP optional under 0\n2 GRP- all-of under 1\n\
         3 A--- task 1 under 2\n4 Z--- task 256 under 2 leaves 2-set\n5 PICK any-of under 0\n\
         6 ONE- task 1 under 5\n7 TWO- task 2 under 5\norder 3 4\n";
    check(&plan(dropped), &plan(choice), &plan(want));
    let want = "flags 3\n0 HULL all-of\n1 PICK any-of under 0\n2 ONE- task 1 under 1\n\
         3 TWO- task 2 under 1\n4 DROP optional under 0\n5 GRP- all-of under 4\n\
         6 A--- task 1 under 5\n7 Z--- task 256 under 5 leaves 2-set\norder 6 7\n";
    check(&plan(choice), &plan(dropped), &plan(want));
}

/// A flag that one plan has starts as there, up to flag 63.
#[test]
fn starts() {
    let few = |start: &str| plan(&format!("flags 1\n{start}0 FEW- task 0\n"));
    let many = |start: &str| plan(&format!("flags 64\n{start}0 MANY task 0\n"));
    for (one, other, start) in [
        ("", "", [0, 0]),
        ("", "start 63\n", [0, 128]),
        ("", "start 1 63\n", [2, 128]),
        ("start 0\n", "start 0\n", [1, 0]),
        ("start 0\n", "start 0 7 56\n", [129, 1]),
    ] {
        let (one, other) = (few(one), many(other));
        for bytes in [merged(&one, &other), merged(&other, &one)] {
            assert_eq!(bytes[6..8], [64, 0]);
            assert_eq!(bytes[8..16], [start[0], 0, 0, 0, 0, 0, 0, start[1]]);
        }
    }
}

/// The verdicts on both plans and, either way round, on the merged one; 02's rule agrees.
#[track_caller]
fn judged(first: &[u8], second: &[u8], want: [u32; 3]) {
    for (one, other) in [(first, second), (second, first)] {
        assert_eq!(verdict(&merged(one, other)), want[2]);
        let judged = pair(one, other).judged();
        assert_eq!(judged.is_clear(), want[2] == CLEAR);
    }
    assert_eq!([verdict(first), verdict(second)], want[..2]);
}

/// A lone task with these conditions, where this is set at the start.
fn task(start: &str, conditions: &str) -> Vec<u8> {
    plan(&format!("flags 2\n{start}0 TASK task 0{conditions}\n"))
}

/// What two tasks on one flag have against each other. It is clear at the start.
#[test]
fn one_against_one() {
    let clear = [CLEAR, CLEAR, CLEAR];
    let open = [CLEAR, CLEAR, OPEN];
    for (one, other, want) in [
        ("", "", clear),
        ("", " holds 0-set leaves 0-clear", clear),
        (" needs 0-clear", " needs 0-clear", clear),
        (" needs 0-clear", " leaves 0-clear", clear),
        (" needs 0-clear", " leaves 1-set", clear),
        (" needs 0-clear", " leaves 0-set", open),
        (" needs 0-clear", " holds 0-set leaves 0-clear", open),
        (" needs 0-clear", " holds 0-clear leaves 0-clear", clear),
        (" needs 0-clear", " holds 0-clear leaves 0-set", open),
        (" leaves 0-set", " leaves 0-set", clear),
        (" leaves 0-set", " leaves 0-clear", open),
        (" leaves 0-clear", " holds 0-set leaves 0-clear", open),
        (" leaves 0-set", " holds 0-set leaves 0-set", clear),
        (" leaves 0-set", " holds 0-set leaves 0-clear", open),
        (
            " holds 0-set leaves 0-set",
            " holds 0-set leaves 0-set",
            clear,
        ),
        (
            " holds 0-set leaves 0-clear",
            " holds 0-clear leaves 0-set",
            open,
        ),
    ] {
        judged(&task("", one), &task("", other), want);
    }
}

/// A need that no run meets first, since the same plan leaves the flag before it, counts too.
#[test]
fn needs_that_are_not_exposed() {
    let covered =
        below("1 SETS task 0 under 0 leaves 0-set; 2 NEED task 0 under 0 needs 0-set; order 1 2");
    judged(&covered, &task("", " leaves 0-clear"), [CLEAR, CLEAR, OPEN]);
    let held = " holds 0-clear leaves 0-set";
    judged(&covered, &task("", held), [CLEAR, CLEAR, OPEN]);
    judged(&covered, &task("", " leaves 0-set"), [CLEAR; 3]);
    judged(&covered, &task("", " leaves 1-clear"), [CLEAR; 3]);
}

/// A leaving that is made good in the same plan counts too, and so does one in a branch that need
/// not be taken or may be skipped.
#[test]
fn leavings_that_do_not_stay() {
    let needs = task("", " needs 0-clear");
    let restored = below(
        "1 SETS task 0 under 0 leaves 0-set; 2 CLEA task 0 under 0 leaves 0-clear; order 1 2",
    );
    judged(&restored, &needs, [CLEAR, CLEAR, OPEN]);
    for kind in ["any-of", "optional"] {
        let branch = plan(&format!(
            "flags 1\n0 PICK {kind}\n1 SETS task 0 under 0 leaves 0-set\n2 BARE task 0 under 0\n"
        ));
        judged(&branch, &needs, [CLEAR, CLEAR, OPEN]);
        judged(&branch, &task("", " leaves 1-set"), [CLEAR; 3]);
    }
}

/// Where one is not CLEAR, the merged plan is not either. It is DOOMED where nothing can touch the
/// flag before CAST needs it; of two CASTs one is the first.
#[test]
fn one_not_clear() {
    let doomed = sample("b-flag-set");
    judged(&doomed, &task("start 0\n", ""), [DOOMED, CLEAR, DOOMED]);
    let touches = task("start 0\n", " leaves 0-clear");
    judged(&doomed, &touches, [DOOMED, CLEAR, OPEN]);
    let open = sample("b-without-order");
    judged(&open, &task("", ""), [OPEN, CLEAR, OPEN]);
    judged(&open, &sample("finish-together"), [OPEN; 3]);
    judged(&doomed, &doomed, [DOOMED; 3]);
    judged(&sample("b"), &sample("b"), [CLEAR, CLEAR, OPEN]);
}

/// The rows of `samples/README.md`.
#[test]
fn sample_of_two_groups() {
    let (b, sister, all) = (sample("b"), sample("sister"), sample("merged"));
    check(&b, &sister, &all);
    let lines = "ACID 22\nSALT 22\nSHUT 20\n";
    assert_eq!(listed(&sister), format!("CLEAR 47\n{lines}FILL 0\n"));
    let of_b = "RADI 12\nSATL 12\nCAST 0\n";
    assert_eq!(listed(&all), format!("CLEAR 47\n{lines}{of_b}FILL 0\n"));
    let needs = shown(&fields(&sister)).replace("needs 8-set", "needs 0-clear 8-set");
    judged(&b, &plan(&needs), [CLEAR, CLEAR, OPEN]);
    for (first, second, len, want) in [
        ("sister", "b", 154, CLEAR),
        ("b", "b", 156, OPEN),
        ("sister", "sister", 152, OPEN),
        ("finish-together", "one-task", 62, OPEN),
    ] {
        let plan = merged(&sample(first), &sample(second));
        assert_eq!((plan.len(), verdict(&plan)), (len, want));
    }
    for (first, second, want) in [
        ("b", "b-flag-set", 34),
        ("b-flag-set", "sister", 34),
        ("nodes-128", "b-flag-set", 33),
        ("large", "large", 33),
        ("minutes-10081", "fifteen-bytes", 6),
        ("fifteen-bytes", "minutes-10081", 1),
        ("large", "fifteen-bytes", 1),
    ] {
        for len in [0, 5_136] {
            let after = merge(&sample(first), &sample(second), &vec![7; len]);
            assert_eq!(after.returned, want, "{first}, {second}");
        }
    }
}
