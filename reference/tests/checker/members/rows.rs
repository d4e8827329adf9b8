//! Who comes and goes, and the answer after each call, made by hand.

use reference::model::format::{self, Order, Plan, NO_PARENT, SET};
use reference::model::members::Change::{Exclude, Include};
use reference::tools::scenario::members::{children, list_of};

use super::{answers, change, check};
use crate::{below, fields, plan, sample, verdict, CLEAR, DOOMED, OPEN};

/// A leaves the flag set, C leaves it clear, Z needs it clear; A before C before Z. With C off A and
/// Z are not ordered, so that the plan is OPEN and not DOOMED.
#[test]
fn trio_of_01() {
    let trio = sample("restored-in-chain");
    check(
        &trio,
        &[
            (Include(1), CLEAR, &[1]),
            (Include(2), CLEAR, &[1, 2]),
            (Include(3), CLEAR, &[1, 2, 3]),
            (Exclude(2), OPEN, &[1, 3]),
            (Include(2), CLEAR, &[1, 2, 3]),
            (Exclude(1), CLEAR, &[2, 3]),
            (Exclude(3), CLEAR, &[2]),
            (Exclude(2), CLEAR, &[]),
        ],
    );
    check(
        &trio,
        &[
            (Include(3), CLEAR, &[3]),
            (Include(1), OPEN, &[1, 3]),
            (Exclude(3), CLEAR, &[1]),
            (Exclude(1), CLEAR, &[]),
        ],
    );
    // With an order of their own A and Z are DOOMED without C.
    let mut ordered = fields(&trio);
    ordered.orders.insert(1, Order::new(1, 3));
    answers(
        &ordered.bytes(),
        &[(&[1, 3], DOOMED), (&[1, 2, 3], CLEAR), (&[1, 2], CLEAR)],
    );
}

/// Refused calls among the others leave the members as they are.
#[test]
fn refused_between() {
    check(
        &sample("restored-in-chain"),
        &[
            (Exclude(1), 32, &[]),
            (Include(1), CLEAR, &[1]),
            (Include(1), 32, &[1]),
            (Include(0), 31, &[1]),
            (Exclude(3), 32, &[1]),
            (Include(3), OPEN, &[1, 3]),
            (Include(4), 17, &[1, 3]),
            (Exclude(4), 17, &[1, 3]),
            (Exclude(0), 31, &[1, 3]),
            (Exclude(2), 32, &[1, 3]),
            (Include(2), CLEAR, &[1, 2, 3]),
            (Exclude(3), CLEAR, &[1, 2]),
            (Exclude(3), 32, &[1, 2]),
        ],
    );
}

/// The rows of `samples/README.md`.
#[test]
fn sample_of_the_quay() {
    let quay = sample("members");
    check(
        &quay,
        &[
            (Include(7), CLEAR, &[7]),
            (Include(1), OPEN, &[1, 7]),
            (Include(4), CLEAR, &[1, 4, 7]),
            (Include(10), OPEN, &[1, 4, 7, 10]),
            (Exclude(7), CLEAR, &[1, 4, 10]),
            (Exclude(4), CLEAR, &[1, 10]),
            (Exclude(1), CLEAR, &[10]),
            (Exclude(10), CLEAR, &[]),
            (Include(2), 31, &[]),
            (Include(0), 31, &[]),
            (Include(11), 17, &[]),
            (Exclude(1), 32, &[]),
        ],
    );
    assert_eq!(change(&quay, &mut [0; 10], Include(7)), 15);
    let mut with_hose = [0; 11];
    with_hose[2] = 1;
    assert_eq!(change(&quay, &mut with_hose, Include(7)), 16);
}

/// Nobody is CLEAR, also where each of them alone is DOOMED.
#[test]
fn nobody() {
    let doomed = below("1 A--- task 0 under 0 needs 0-set; 2 Z--- task 0 under 0 needs 1-set");
    check(
        &doomed,
        &[
            (Include(1), DOOMED, &[1]),
            (Include(2), DOOMED, &[1, 2]),
            (Exclude(1), DOOMED, &[2]),
            (Exclude(2), CLEAR, &[]),
            (Include(2), DOOMED, &[2]),
            (Exclude(2), CLEAR, &[]),
        ],
    );
    assert_eq!(verdict(&doomed), DOOMED);
}

/// With everybody it is the plan's own answer, in whatever order they come.
#[test]
fn everybody() {
    let mut met = [0; 3];
    for name in [
        "b",
        "b-flag-set",
        "b-without-order",
        "branch-blocked",
        "calibration-optional",
        "equal-waits",
        "finish-together",
        "generated",
        "incondition-broken",
        "members",
        "preconditions-ordered",
        "preconditions-unordered",
        "restored-by-choice",
        "restored-in-chain",
        "restored-unordered",
        "sequence-found",
    ] {
        let plan = sample(name);
        let all: Vec<usize> = fields(&plan).children(0).collect();
        let own = verdict(&plan);
        answers(&plan, &[(&all, own)]);
        met[own as usize - 128] += 1;
    }
    assert_eq!(met, [5, 2, 9]);
}

/// An order through an absent child does not tie its neighbours; one beside it does.
#[test]
fn neighbours() {
    let tasks =
        "1 SETS task 0 under 0 leaves 0-set; 2 C--- task 0 under 0; 3 D--- task 0 under 0; \
        4 NEED task 0 under 0 needs 0-clear";
    let in_line = below(&format!("{tasks}; order 1 2; order 2 3; order 3 4"));
    answers(
        &in_line,
        &[
            (&[1, 2, 3, 4], DOOMED),
            (&[1, 2, 4], OPEN),
            (&[1, 3, 4], OPEN),
            (&[1, 4], OPEN),
            (&[2, 3, 4], CLEAR),
            (&[1, 2, 3], CLEAR),
        ],
    );
    let two_ways = below(&format!(
        "{tasks}; order 1 2; order 1 3; order 2 4; order 3 4"
    ));
    answers(
        &two_ways,
        &[
            (&[1, 2, 3, 4], DOOMED),
            (&[1, 2, 4], DOOMED),
            (&[1, 3, 4], DOOMED),
            (&[1, 4], OPEN),
        ],
    );
    let beside = below(&format!("{tasks}; order 1 2; order 1 4; order 2 4"));
    answers(&beside, &[(&[1, 2, 4], DOOMED), (&[1, 4], DOOMED)]);
}

/// What is under an absent child is absent, whatever its numbers are, and orders inside a member
/// stay.
#[test]
fn subtrees() {
    // Under 1 are 4 and 7, which leave the flag opposite ways; under 2 are 3 and 6.
    let lines = "1 ONE- all-of under 0; 2 TWO- all-of under 0; \
        3 NEED task 0 under 2 needs 0-clear; 4 SETS task 0 under 1 leaves 0-set; \
        5 BARE task 0 under 0; 6 BARE task 0 under 2; 7 CLEA task 0 under 1 leaves 0-clear";
    let sets: [&[usize]; 5] = [&[1], &[2], &[1, 2], &[2, 5], &[1, 2, 5]];
    for (orders, want) in [
        ("", [OPEN, CLEAR, OPEN, CLEAR, OPEN]),
        ("; order 4 7", [CLEAR, CLEAR, OPEN, CLEAR, OPEN]),
        ("; order 1 2; order 4 7", [CLEAR; 5]),
        ("; order 1 2; order 3 6", [OPEN, CLEAR, OPEN, CLEAR, OPEN]),
    ] {
        let rows: Vec<(&[usize], u32)> = sets.into_iter().zip(want).collect();
        answers(&below(&format!("{lines}{orders}")), &rows);
    }
}

/// Groups of every kind as members, with groups in them.
#[test]
fn kinds_of_members() {
    let holds = "1 HOLD task 0 under 0 holds 0-clear leaves 0-clear";
    let group = "3 SETS task 0 under 2 leaves 0-set; 4 BARE task 0 under 2";
    for kind in ["all-of", "any-of", "optional"] {
        let plan = below(&format!("{holds}; 2 GRP- {kind} under 0; {group}"));
        answers(&plan, &[(&[1], CLEAR), (&[2], CLEAR), (&[1, 2], OPEN)]);
    }
    // Of 01's choice book: PICK, which may restore the flag, or nobody, is between A and Z.
    answers(
        &sample("restored-by-choice"),
        &[
            (&[1, 2, 5], OPEN),
            (&[1, 5], OPEN),
            (&[1, 2], CLEAR),
            (&[2, 5], CLEAR),
            (&[2], CLEAR),
        ],
    );
    // A choice one of whose branches cannot start, and one of which none can.
    let branches =
        "2 ONE- task 0 under 1 needs 0-set; 3 TWO- task 0 under 1; 4 BARE task 0 under 0";
    for (kind, one, none) in [("any-of", OPEN, DOOMED), ("optional", OPEN, OPEN)] {
        let lines = format!("1 PICK {kind} under 0; {branches}");
        answers(
            &below(&lines),
            &[(&[1], one), (&[1, 4], one), (&[4], CLEAR)],
        );
        let unmet = lines.replace("TWO- task 0 under 1", "TWO- task 0 under 1 needs 0-set");
        answers(
            &below(&unmet),
            &[(&[1], none), (&[1, 4], none), (&[4], CLEAR)],
        );
    }
}

/// Opposite leavings (104) come and go with the second of two.
#[test]
fn opposite_leavings() {
    check(
        &sample("finish-together"),
        &[
            (Include(2), CLEAR, &[2]),
            (Include(1), OPEN, &[1, 2]),
            (Exclude(2), CLEAR, &[1]),
            (Include(2), OPEN, &[1, 2]),
            (Exclude(1), CLEAR, &[2]),
        ],
    );
    // One after the other by a third, and without it at once.
    let tied = below(
        "1 SETS task 0 under 0 leaves 0-set; 2 BARE task 0 under 0; \
         3 CLEA task 0 under 0 leaves 0-clear; order 1 2; order 2 3",
    );
    answers(
        &tied,
        &[(&[1, 2, 3], CLEAR), (&[1, 3], OPEN), (&[1, 2], CLEAR)],
    );
}

/// Needs, holds and what is needed at the start, from flag 0 to flag 63.
#[test]
fn flags_and_start() {
    for flags in [1, 2, 8, 9, 33, 64] {
        let last = flags - 1;
        let lines = format!(
            "0 ROOT all-of\n1 NEED task 0 under 0 needs {last}-clear\n\
             2 HOLD task 0 under 0 holds {last}-clear leaves {last}-clear\n"
        );
        let at_start = |start: &str| plan(&format!("flags {flags}\n{start}{lines}"));
        answers(
            &at_start(""),
            &[(&[1], CLEAR), (&[2], CLEAR), (&[1, 2], CLEAR)],
        );
        let set = at_start(&format!("start {last}\n"));
        answers(&set, &[(&[1], DOOMED), (&[2], CLEAR), (&[1, 2], OPEN)]);
    }
}

/// 127 children in one chain: the first leaves what the last needs otherwise. Each of the others
/// ties them, and with any one off they are tied no more.
#[test]
fn full_size() {
    let first = Plan::flat(64, 2).post(63, SET);
    let bare = (2..127).fold(first, |plan, _| plan.task(b"BARE", 0, 0));
    let tasks = bare.task(b"NEED", 0, 0).pre(63, format::CLEAR);
    let chain = (1..127).fold(tasks, |plan, node| plan.order(node, node + 1));
    let (bytes, all) = (chain.bytes(), children(&chain));
    assert_eq!((all.len(), verdict(&bytes)), (127, DOOMED));
    let mut list = list_of(&chain, &all);
    for off in [1, 2, 64, 126, 127] {
        let want = if off == 1 || off == 127 { CLEAR } else { OPEN };
        let returned = [Exclude(off), Include(off)].map(|call| change(&bytes, &mut list, call));
        assert_eq!(returned, [want, DOOMED], "{off}");
        assert_eq!(list, list_of(&chain, &all));
    }
}

/// One child, in which 126 groups stand each in the one before it, with a task in the last.
#[test]
fn deep() {
    let root = Plan::new(1).all_of(b"ROOT", NO_PARENT);
    let groups = (0..126).fold(root, |plan, above| plan.all_of(b"GRP-", above));
    let plan = groups.task(b"NEED", 126, 0).pre(0, SET).bytes();
    check(
        &plan,
        &[
            (Include(2), 31, &[]),
            (Include(127), 31, &[]),
            (Include(1), DOOMED, &[1]),
            (Include(128), 17, &[1]),
            (Exclude(1), CLEAR, &[]),
        ],
    );
}
