//! Mark 6 and the verdict where postconditions are opposed.

use super::OPPOSED;
use crate::{entries, plan, sample, verdict, CLEAR, DOOMED, OPEN};

/// May clobber (01: may clash) of "flag 0 clear" and "flag 0 set" at each of the first nodes.
fn clobbered<const N: usize>(text: &str) -> [[u8; 2]; N] {
    let plan = plan(text);
    let mut node = 0;
    [(); N].map(|()| {
        let entries = entries(&plan, node);
        node += 1;
        [entries[0][6], entries[1][6]]
    })
}

const NO: [u8; 2] = [0, 0];
const BOTH: [u8; 2] = [1, 1];

/// Both literals at the group, and no mark at its children.
#[test]
fn at_the_group_alone() {
    assert_eq!(clobbered(OPPOSED), [BOTH, NO, NO]);
    // In 01's trial A leaves the flag set, C leaves it clear, and Z after C needs it clear.
    for plan in [plan(OPPOSED), sample("restored-unordered")] {
        let root = entries(&plan, 0);
        assert_eq!(root, [[0, 0, 1, 0, 0, 0, 1, 0], [0, 0, 1, 0, 0, 0, 1, 0]]);
    }
}

/// In their order one after the other, by a chain too, they are not opposed.
#[test]
fn ordered() {
    let one_order = format!("{OPPOSED}order 1 2\n");
    assert_eq!(clobbered(&one_order), [NO, NO, NO]);
    assert_eq!(verdict(&plan(&one_order)), CLEAR);
    let third = "flags 1\n0 ROOT all-of\n1 A--- task 0 under 0 leaves 0-set\n\
        2 B--- task 0 under 0\n3 Z--- task 0 under 0 leaves 0-clear\n";
    let chain = format!("{third}order 1 2\norder 2 3\n");
    assert_eq!(clobbered(&chain), [NO, NO, NO, NO]);
    assert_eq!(verdict(&plan(&chain)), CLEAR);
    for orders in ["order 1 2\n", "order 2 3\n"] {
        let text = format!("{third}{orders}");
        assert_eq!(clobbered(&text), [BOTH, NO, NO, NO], "{orders}");
        assert_eq!(verdict(&plan(&text)), OPEN, "{orders}");
    }
    // An order between groups orders the tasks in them.
    let groups = "flags 1\n0 ROOT all-of\n1 ONE- all-of under 0\n2 TWO- all-of under 0\n\
        3 A--- task 0 under 1 leaves 0-set\n4 Z--- task 0 under 2 leaves 0-clear\n";
    assert_eq!(clobbered(groups), [BOTH, NO, NO, NO, NO]);
    assert_eq!(clobbered(&format!("{groups}order 1 2\n")), [NO; 5]);
}

/// The group that they stand in is all-of: of a choice only one is done.
#[test]
fn branches_of_one_choice() {
    let with_root = |kind: &str| OPPOSED.replace("all-of", kind);
    for kind in ["any-of", "optional"] {
        assert_eq!(clobbered(&with_root(kind)), [NO, NO, NO], "{kind}");
        assert_eq!(verdict(&plan(&with_root(kind))), CLEAR, "{kind}");
    }
    // Also in groups in its branches, and with the choice in an all-of group.
    for kind in ["any-of", "optional"] {
        let text = format!(
            "flags 1\n0 ROOT all-of\n1 PICK {kind} under 0\n2 ONE- all-of under 1\n\
             3 TWO- all-of under 1\n4 A--- task 0 under 2 leaves 0-set\n\
             5 Z--- task 0 under 3 leaves 0-clear\n"
        );
        assert_eq!(clobbered(&text), [NO; 6], "{kind}");
        assert_eq!(verdict(&plan(&text)), CLEAR, "{kind}");
    }
}

/// Every node above the group has the mark, of whatever kind it is.
#[test]
fn above_the_group() {
    for kind in ["all-of", "any-of", "optional"] {
        let text = format!(
            "flags 1\n0 ROOT {kind}\n1 MID- {kind} under 0\n2 GRP- all-of under 1\n\
             3 A--- task 0 under 2 leaves 0-set\n4 Z--- task 0 under 2 leaves 0-clear\n\
             5 BARE task 0 under 1\n6 LAST task 0 under 0\n"
        );
        let want = [BOTH, BOTH, BOTH, NO, NO, NO, NO];
        assert_eq!(clobbered(&text), want, "{kind}");
        assert_eq!(verdict(&plan(&text)), OPEN, "{kind}");
    }
}

/// What counts is each task under a child, chosen or not and whatever follows it there.
#[test]
fn tasks_deep_in_children() {
    for kind in ["all-of", "any-of", "optional"] {
        let text = format!(
            "flags 1\n0 ROOT all-of\n1 ONE- {kind} under 0\n2 TWO- {kind} under 0\n\
             3 A--- task 0 under 1 leaves 0-set\n4 B--- task 0 under 1\n\
             5 C--- task 0 under 2\n6 Z--- task 0 under 2 leaves 0-clear\n"
        );
        assert_eq!(clobbered(&text), [BOTH, NO, NO, NO, NO, NO, NO], "{kind}");
    }
    // ONE leaves the flag clear in the end, as Z does, but sets it before.
    let covered = "flags 1\n0 ROOT all-of\n1 ONE- all-of under 0\n\
        2 A--- task 0 under 1 leaves 0-set\n3 B--- task 0 under 1 leaves 0-clear\n\
        4 Z--- task 0 under 0 leaves 0-clear\norder 2 3\n";
    assert_eq!(clobbered(covered), [BOTH, NO, NO, NO, NO]);
    assert_eq!(verdict(&plan(covered)), OPEN);
}

/// Postconditions alone count, not inconditions.
#[test]
fn inconditions_do_not_count() {
    // A sets the flag while it runs and leaves it clear, as Z does: only "set" may clash.
    let held = "flags 1\n0 ROOT all-of\n1 A--- task 0 under 0 holds 0-set leaves 0-clear\n\
        2 Z--- task 0 under 0 leaves 0-clear\n";
    assert_eq!(clobbered(held), [[0, 1], NO, NO]);
    // Each holds what both leave the opposite of.
    let both = "flags 1\n0 ROOT all-of\n1 A--- task 0 under 0 holds 0-set leaves 0-clear\n\
        2 Z--- task 0 under 0 holds 0-set leaves 0-clear\n";
    assert_eq!(clobbered(both), [[0, 1], NO, NO]);
    // A task that holds the flag leaves it all the same: "set" is broken, and both are opposed.
    let held_and_left = "flags 1\n0 ROOT all-of\n1 A--- task 0 under 0 holds 0-set leaves 0-set\n\
        2 Z--- task 0 under 0 leaves 0-clear\n";
    assert_eq!(clobbered(held_and_left), [BOTH, NO, NO]);
    // The same postcondition twice, and on two flags.
    let same = OPPOSED.replace("leaves 0-set", "leaves 0-clear");
    assert_eq!(clobbered(&same), [NO; 3]);
    let other_flag = OPPOSED
        .replace("flags 1", "flags 2")
        .replace("leaves 0-set", "leaves 1-set");
    assert_eq!(clobbered(&other_flag), [NO; 3]);
    assert_eq!(verdict(&plan(&other_flag)), CLEAR);
}

/// Doom stays what it was: opposed postconditions make no plan DOOMED, and keep none from it.
#[test]
fn doom_stays() {
    let doomed = "flags 1\n0 ROOT all-of\n1 A--- task 0 under 0 needs 0-set leaves 0-set\n\
        2 Z--- task 0 under 0 needs 0-set leaves 0-clear\n";
    assert_eq!(verdict(&plan(doomed)), DOOMED);
    assert_eq!(clobbered(doomed), [BOTH, NO, NO]);
    for text in [OPPOSED, doomed] {
        let root = entries(&plan(text), 0);
        assert_eq!([root[0][7], root[1][7]], [0, 0]);
    }
}
