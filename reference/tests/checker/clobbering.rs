//! Marks 6 and 7, clause by clause.

use crate::{entries, plan};

/// May clobber and must clobber (01: may clash, doom) of "flag 0 clear" at an all-of root with
/// these nodes and orders below it.
#[track_caller]
fn check(want: [u8; 2], lines: &str) {
    let text = format!("flags 1\n0 ROOT all-of\n{}\n", lines.replace("; ", "\n"));
    assert_eq!(entries(&plan(&text), 0)[0][6..], want, "{text}");
}

/// D leaves the flag set, C needs it clear; E is a third child.
#[test]
fn left_by_one_and_needed_by_another() {
    const D: &str = "D--- task 0 under 0 leaves 0-set";
    const C: &str = "C--- task 0 under 0 needs 0-clear";
    const E: &str = "E--- task 0 under 0 leaves 0-clear";

    check([1, 0], &format!("1 {D}; 2 {C}"));
    check([1, 1], &format!("1 {D}; 2 {C}; order 1 2"));
    check([0, 0], &format!("1 {C}; 2 {D}; order 1 2"));

    let (in_chain, and_c) = ("order 1 2; order 2 3", "order 1 2; order 1 3");
    check([1, 1], &format!("1 {E}; 2 {D}; 3 {C}; {in_chain}"));
    check([0, 0], &format!("1 {D}; 2 {E}; 3 {C}; {in_chain}"));
    check([1, 1], &format!("1 {D}; 2 {C}; 3 {E}; {in_chain}"));
    check([1, 0], &format!("1 {D}; 2 {C}; 3 {E}; order 1 2"));
    check([1, 0], &format!("1 {D}; 2 {C}; 3 {E}; {and_c}"));
    check(
        [1, 0],
        &format!("1 {E}; 2 {D}; 3 {C}; order 1 3; order 2 3"),
    );

    // Chains count as orders do; the flag may be left set twice; needs do not touch it.
    let bare = "E--- task 0 under 0";
    check([1, 1], &format!("1 {D}; 2 {bare}; 3 {C}; {in_chain}"));
    check([1, 1], &format!("1 {D}; 2 {D}; 3 {C}; {in_chain}"));
    check([1, 1], &format!("1 {D}; 2 {C}; 3 {C}; order 1 2"));

    // A start that asserts, but a finish that restores.
    let restores = "D--- task 0 under 0 holds 0-set leaves 0-clear";
    check([1, 0], &format!("1 {restores}; 2 {C}"));
    check([0, 0], &format!("1 {restores}; 2 {C}; order 1 2"));
}

#[test]
fn choices() {
    const D: &str = "D--- task 0 under 0 leaves 0-set";
    const C: &str = "C--- task 0 under 0 needs 0-clear";
    const PICK: &str = "PICK any-of under 0";
    let leaves = "LEAV task 0 under 1 leaves 0-set";
    let needs = "NEED task 0 under 1 needs 0-clear";
    let bare = "BARE task 0 under 1";

    // No clash between two branches of one choice.
    check([0, 0], &format!("1 {PICK}; 2 {leaves}; 3 {needs}"));

    // D or C a choice: what it may do, and what it must.
    check(
        [1, 0],
        &format!("1 {PICK}; 2 {leaves}; 3 {bare}; 4 {C}; order 1 4"),
    );
    check(
        [1, 1],
        &format!("1 {PICK}; 2 {leaves}; 3 {leaves}; 4 {C}; order 1 4"),
    );
    let needs = "NEED task 0 under 2 needs 0-clear";
    let bare = "BARE task 0 under 2";
    check(
        [1, 0],
        &format!("1 {D}; 2 {PICK}; 3 {needs}; 4 {bare}; order 1 2"),
    );
    check(
        [1, 1],
        &format!("1 {D}; 2 {PICK}; 3 {needs}; 4 {needs}; order 1 2"),
    );

    // A choice beside or between them that touches the flag in one branch.
    let clears = "CLEA task 0 under 2 leaves 0-clear";
    for orders in ["order 1 5", "order 1 2; order 2 5"] {
        check(
            [1, 0],
            &format!("1 {D}; 2 {PICK}; 3 {clears}; 4 {bare}; 5 {C}; {orders}"),
        );
    }
    let both = "order 1 2; order 2 5";
    check(
        [0, 0],
        &format!("1 {D}; 2 {PICK}; 3 {clears}; 4 {clears}; 5 {C}; {both}"),
    );
    check(
        [1, 1],
        &format!("1 {D}; 2 {PICK}; 3 {bare}; 4 {bare}; 5 {C}; {both}"),
    );
}

/// A child that has doom itself, beside a sibling.
#[test]
fn doom_of_a_child() {
    const DOOM: &str = "1 DOOM all-of under 0; 2 D--- task 0 under 1 leaves 0-set; \
        3 C--- task 0 under 1 needs 0-clear";
    let sets = "SETS task 0 under 0 leaves 0-set";
    let clears = "CLEA task 0 under 0 leaves 0-clear";
    check([1, 1], &format!("{DOOM}; order 2 3"));
    check([1, 1], &format!("{DOOM}; 4 BARE task 0 under 0; order 2 3"));
    check([1, 0], &format!("{DOOM}; 4 {clears}; order 2 3"));
    check([1, 0], &format!("{DOOM}; 4 {sets}; order 2 3"));
    check([1, 1], &format!("{DOOM}; 4 {clears}; order 1 4; order 2 3"));
    check(
        [1, 1],
        &format!("{DOOM}; 4 BARE task 0 under 0; 5 {clears}; order 1 4; order 2 3; order 4 5"),
    );
    check(
        [1, 1],
        &format!(
            "1 {clears}; 2 DOOM all-of under 0; 3 D--- task 0 under 2 leaves 0-set; \
             4 C--- task 0 under 2 needs 0-clear; order 1 2; order 3 4"
        ),
    );
    check(
        [1, 0],
        &format!(
            "{DOOM}; 4 PICK any-of under 0; 5 CLEA task 0 under 4 leaves 0-clear; \
             6 BARE task 0 under 4; order 2 3"
        ),
    );
}

#[test]
fn doom_of_branches() {
    let branch = |first: usize| {
        let (d, c) = (first + 1, first + 2);
        format!(
            "{first} DOOM all-of under 1; {d} D--- task 0 under {first} leaves 0-set; \
             {c} C--- task 0 under {first} needs 0-clear"
        )
    };
    let pick = "1 PICK any-of under 0";
    let (one, two) = (branch(2), branch(5));
    check(
        [1, 1],
        &format!("{pick}; {one}; {two}; order 3 4; order 6 7"),
    );
    check([1, 0], &format!("{pick}; {one}; {two}; order 3 4"));
    check(
        [1, 0],
        &format!("{pick}; {one}; 5 BARE task 0 under 1; order 3 4"),
    );
}

#[test]
fn inconditions() {
    let holds = "HOLD task 0 under 0 holds 0-clear leaves 0-clear";
    let swaps = "SWAP task 0 under 0 holds 0-clear leaves 0-set";
    let sets = "SETS task 0 under 0 leaves 0-set";
    let while_it_runs = "RUNS task 0 under 0 holds 0-set leaves 0-clear";
    check([1, 0], &format!("1 {holds}; 2 {sets}"));
    check([1, 0], &format!("1 {holds}; 2 {while_it_runs}"));
    check([0, 0], &format!("1 {holds}; 2 {sets}; order 1 2"));
    check([0, 0], &format!("1 {sets}; 2 {holds}; order 1 2"));
    check([0, 0], &format!("1 {holds}; 2 {holds}"));
    // Its own finish breaks no incondition of its own, but another's does.
    check([0, 0], &format!("1 {swaps}"));
    check([1, 0], &format!("1 {swaps}; 2 {swaps}"));
}

/// A need that its own group covers is open to an unordered sibling all the same.
#[test]
fn covered_need() {
    let group = "1 GRP- all-of under 0; 2 CLEA task 0 under 1 leaves 0-clear; \
        3 NEED task 0 under 1 needs 0-clear";
    let sets = "SETS task 0 under 0 leaves 0-set";
    check([0, 0], &format!("{group}; order 2 3"));
    check([1, 0], &format!("{group}; 4 {sets}; order 2 3"));
    check(
        [0, 0],
        &format!(
            "1 {sets}; 2 GRP- all-of under 0; 3 CLEA task 0 under 2 leaves 0-clear; \
             4 NEED task 0 under 2 needs 0-clear; order 1 2; order 3 4"
        ),
    );
}
