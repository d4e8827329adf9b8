//! Plans with their sequences, made by hand.

use reference::model::format::{Plan, CLEAR, NO_PARENT, SET};
use reference::model::sequence::read;

use super::{admitted, check, returned};
use super::{ANY_OF_THREE, BARE, CLEARS, NEEDS, NONE, SETS};
use crate::{below, plan, sample};

/// A leaves the flag set, Z needs it clear: only Z before A, against the numbers.
#[test]
fn against_the_numbers() {
    check(&below(&format!("1 {SETS}; 2 {NEEDS}")), &[[2, 1]]);
    check(&below(&format!("1 {NEEDS}; 2 {SETS}")), &[[1, 2]]);
    let third = [[2, 1, 3], [2, 3, 1], [3, 2, 1]];
    check(&below(&format!("1 {SETS}; 2 {NEEDS}; 3 {BARE}")), &third);
}

/// A sequence that breaks an order of the plan is none.
#[test]
fn orders_of_the_plan() {
    check(&below(&format!("1 {SETS}; 2 {NEEDS}; order 1 2")), NONE);
    check(
        &below(&format!("1 {NEEDS}; 2 {SETS}; order 1 2")),
        &[[1, 2]],
    );
    // C restores what A leaves: it comes between the two, or after both where Z is first.
    let restored = format!("1 {SETS}; 2 {NEEDS}; 3 {CLEARS}");
    let free = [[1, 3, 2], [2, 1, 3], [2, 3, 1], [3, 2, 1]];
    check(&below(&restored), &free);
    check(&below(&format!("{restored}; order 1 2")), &[[1, 3, 2]]);
    check(
        &below(&format!("{restored}; order 2 3")),
        &[[2, 1, 3], [2, 3, 1]],
    );
    check(&below(&format!("{restored}; order 1 2; order 2 3")), NONE);
    // By a chain 1 is before 3.
    let chain = format!("1 {SETS}; 2 {BARE}; 3 {NEEDS}; order 1 2; order 2 3");
    check(&below(&chain), NONE);
}

/// Orders below the root stay as they are, and bind no sequence.
#[test]
fn orders_below_the_root() {
    let inner = "1 GRP- all-of under 0; 2 SETS task 0 under 1 leaves 0-set; \
        3 CLEA task 0 under 1 leaves 0-clear";
    check(
        &below(&format!("{inner}; 4 {NEEDS}; order 2 3")),
        &[[1, 4], [4, 1]],
    );
    // Without its order GRP leaves the flag opposite ways in itself (104).
    check(&below(&format!("{inner}; 4 {NEEDS}")), NONE);
}

/// What a child may clobber inside itself no sequence puts right. Two branches of one choice
/// clobber nothing.
#[test]
fn conflicts_inside() {
    let sets = "2 SETS task 0 under 1 leaves 0-set";
    let needs = "3 NEED task 0 under 1 needs 0-clear";
    for other in [
        needs,
        "3 CLEA task 0 under 1 leaves 0-clear",
        "3 HOLD task 0 under 1 holds 0-clear leaves 0-clear",
    ] {
        let group = |kind: &str| format!("1 GRP- {kind} under 0; {sets}; {other}; 4 {BARE}");
        check(&below(&group("all-of")), NONE);
        check(&below(&group("any-of")), &[[1, 4], [4, 1]]);
    }
    let in_order = format!("1 GRP- all-of under 0; {sets}; {needs}; 4 {BARE}; order 2 3");
    check(&below(&in_order), NONE);
    // In one branch of a choice below it: it may come to that.
    let deep = "1 PICK any-of under 0; 2 GRP- all-of under 1; \
        3 SETS task 0 under 2 leaves 0-set; 4 NEED task 0 under 2 needs 0-clear; \
        5 BARE task 0 under 1";
    for kind in ["any-of", "optional"] {
        check(&below(&deep.replace("any-of", kind)), NONE);
    }
}

/// What runs at once without a sequence does no harm in one.
#[test]
fn one_after_the_other() {
    let both = [[1, 2], [2, 1]];
    check(&below(&format!("1 {SETS}; 2 {CLEARS}")), &both);
    let holds = |sign| format!("HOLD task 0 under 0 holds 0-{sign} leaves 0-clear");
    let (set, clear) = (holds("set"), holds("clear"));
    check(&below(&format!("1 {set}; 2 {clear}")), &both);
    check(&below(&format!("1 {set}; 2 {SETS}; 3 {NEEDS}")), &{
        // NEED comes before SETS, or HOLD between them restores the flag.
        [[1, 3, 2], [2, 1, 3], [3, 1, 2], [3, 2, 1]]
    });
}

#[test]
fn start_flags() {
    let lines = format!("flags 2\nSTART0 ROOT all-of\n1 {NEEDS}\n2 {BARE}\n3 {CLEARS}\n");
    let at_start = |start: &str| plan(&lines.replace("START", start));
    check(&at_start(""), &ANY_OF_THREE);
    check(&at_start("start 1\n"), &ANY_OF_THREE);
    let restored = [[2, 3, 1], [3, 1, 2], [3, 2, 1]];
    check(&at_start("start 0\n"), &restored);
    // Nothing makes the flag what NEED wants.
    let unmet = format!("flags 1\nstart 0\n0 ROOT all-of\n1 {NEEDS}\n2 {BARE}\n");
    check(&plan(&unmet), NONE);
    check(&plan(&format!("{unmet}3 {SETS}\n")), NONE);
}

/// What a choice or an optional group may leave it need not leave.
#[test]
fn may_is_not_must() {
    let group = |kind: &str, leaves: &str| {
        let task = format!("3 TASK task 0 under 2 leaves 0-{leaves}");
        let bare = "4 NONE task 0 under 2";
        format!("1 {SETS}; 2 PICK {kind} under 0; {task}; {bare}; 5 {NEEDS}")
    };
    // PICK may restore the flag, but Z still has to come before A.
    let restores = [[2, 5, 1], [5, 1, 2], [5, 2, 1]];
    // PICK may break it: then Z comes before both.
    let breaks = [[5, 1, 2], [5, 2, 1]];
    for kind in ["any-of", "optional"] {
        check(&below(&group(kind, "clear")), &restores);
        check(&below(&group(kind, "set")), &breaks);
        let orders = "order 1 2; order 2 5";
        let in_order = format!("{}; {orders}", group(kind, "clear"));
        check(&below(&in_order), NONE);
    }
    // With both branches restoring it an any-of group must, an optional one still need not.
    let must = [[1, 2, 5], [2, 5, 1], [5, 1, 2], [5, 2, 1]];
    for (kind, free, in_order) in [
        ("any-of", &must[..], &must[..1]),
        ("optional", &must[1..], &[]),
    ] {
        let both = group(kind, "clear").replace("2; 5", "2 leaves 0-clear; 5");
        check(&below(&both), free);
        check(&below(&format!("{both}; order 1 2; order 2 5")), in_order);
    }
}

/// An optional group may be skipped: then what it needs is not asked, what was before it stays.
#[test]
fn optional_groups() {
    // DROP needs the flag set, and only A sets it.
    let needs = "2 DROP optional under 0; 3 TASK task 0 under 2 needs 0-set";
    check(&below(&format!("1 {SETS}; {needs}")), &[[1, 2]]);
    check(&below(&format!("1 {BARE}; {needs}")), NONE);
    check(&below(&format!("1 {CLEARS}; {needs}; 4 {SETS}")), &{
        [[1, 4, 2], [4, 2, 1]]
    });
    // DROP sets the flag, or not, and Z needs it set.
    let sets = "1 DROP optional under 0; 2 TASK task 0 under 1 leaves 0-set";
    let wants = "WANT task 0 under 0 needs 0-set";
    check(&below(&format!("{sets}; 3 {wants}")), NONE);
    check(&below(&format!("{sets}; 3 {wants}; 4 {SETS}")), &{
        [[1, 4, 3], [4, 1, 3], [4, 3, 1]]
    });
    // Optional groups inside children of other kinds.
    let inside = "1 GRP- all-of under 0; 2 DROP optional under 1; \
        3 CLEA task 0 under 2 leaves 0-clear; 4 BARE task 0 under 1";
    check(
        &below(&format!("{inside}; 5 {SETS}; 6 {NEEDS}")),
        &[[1, 6, 5], [6, 1, 5], [6, 5, 1]],
    );
}

/// What a child needs of itself and gives itself no other child has to give.
#[test]
fn needs_met_inside() {
    let group = "1 GRP- all-of under 0; 2 CLEA task 0 under 1 leaves 0-clear; \
        3 NEED task 0 under 1 needs 0-clear";
    check(
        &below(&format!("{group}; 4 {SETS}; order 2 3")),
        &[[1, 4], [4, 1]],
    );
    check(&below(&format!("{group}; 4 {SETS}")), &[[1, 4]]);
}

#[test]
fn one_child() {
    check(&below(&format!("1 {BARE}")), &[[1]]);
    check(&below(&format!("1 {NEEDS}")), &[[1]]);
    check(&below("1 WANT task 0 under 0 needs 0-set"), NONE);
    let group = "1 GRP- all-of under 0; 2 SETS task 0 under 1 leaves 0-set; \
        3 NEED task 0 under 1 needs 0-clear";
    check(&below(group), NONE);
    check(
        &below(&group.replace("1 GRP- all-of", "1 GRP- optional")),
        &[[1]],
    );
}

/// Each child needs clear what the lower ones leave set: only from the highest number down.
fn falling(children: u8) -> Plan {
    let root = Plan::new(8).all_of(b"ROOT", NO_PARENT);
    (0..u16::from(children)).fold(root, |plan, child| {
        let task = plan.task(b"TASK", 0, 0);
        let needs = (0..child).fold(task, |plan, lower| plan.pre(lower, CLEAR));
        needs.post(child, SET)
    })
}

#[test]
fn seven_children() {
    let bare = |children| Plan::flat(1, children + 1).bytes();
    let mut factorial = 1;
    for children in 1..=7 {
        factorial *= children;
        assert_eq!(admitted(&bare(children)).len(), factorial);
        let rising: Vec<usize> = (1..=children).collect();
        assert_eq!(read(returned(&bare(children))), Some(rising));
        let falling = falling(children as u8).bytes();
        let want: Vec<usize> = (1..=children).rev().collect();
        assert_eq!(read(returned(&falling)), Some(want));
    }
    check(&falling(7).bytes(), &[[7, 6, 5, 4, 3, 2, 1]]);
    // An order against it, direct or by a chain.
    for order in [(1, 2), (6, 7), (1, 7)] {
        check(&falling(7).order(order.0, order.1).bytes(), NONE);
    }
    let chain = Plan::flat(1, 8).order(1, 2).order(2, 3).order(3, 4);
    let chain = chain.order(4, 5).order(5, 6).order(6, 7);
    check(&chain.bytes(), &[[1, 2, 3, 4, 5, 6, 7]]);
}

/// The greatest numbers of nodes: 127 before 126 before 1, a group of 124 tasks.
#[test]
fn high_numbers() {
    let mut plan = Plan::new(64).all_of(b"ROOT", NO_PARENT).all_of(b"GRP-", 0);
    for _ in 2..126 {
        plan = plan.task(b"TASK", 1, 0).post(63, SET);
    }
    let plan = plan.task(b"MIDD", 0, 0).pre(63, CLEAR).post(62, SET);
    let plan = plan.task(b"LAST", 0, 0).pre(62, CLEAR);
    check(&plan.bytes(), &[[127, 126, 1]]);
    let ordered = plan.order(126, 127).bytes();
    check(&ordered, NONE);
}

/// Eight children, or more, of a lower group are no matter of 23.
#[test]
fn wide_groups_below() {
    for kind in ["all-of", "any-of", "optional"] {
        let tasks: Vec<String> = (2..=9)
            .map(|node| format!("{node} TASK task 0 under 1 leaves 0-set"))
            .collect();
        let lines = format!("1 GRP- {kind} under 0; {}; 10 {NEEDS}", tasks.join("; "));
        check(&below(&lines), &[[10, 1]]);
    }
}

/// The limit of 512 orders does not bind the trial.
#[test]
fn as_many_orders_as_may_be() {
    let mut plan = Plan::new(1).all_of(b"ROOT", NO_PARENT).all_of(b"GRP-", 0);
    for _ in 2..35 {
        plan = plan.task(b"TASK", 1, 0);
    }
    plan = plan.task(b"SETS", 1, 0).post(0, SET);
    for _ in 0..5 {
        plan = plan.task(b"BARE", 0, 0);
    }
    plan = plan.task(b"NEED", 0, 0).pre(0, CLEAR);
    let pairs = (2..35).flat_map(|earlier| (earlier + 1..36).map(move |later| (earlier, later)));
    for (earlier, later) in pairs.take(512) {
        plan = plan.order(earlier, later);
    }
    assert_eq!(plan.orders.len(), 512);
    let found = read(returned(&plan.bytes()));
    assert_eq!(found, Some(vec![36, 37, 38, 39, 40, 41, 1]));
}

/// Flags that the plan does not have count as clear, whatever their number is.
#[test]
fn flags_past_the_last() {
    for flags in 1..=64 {
        let text = format!("flags {flags}\nSTART0 ROOT all-of\n1 {SETS}\n2 {NEEDS}\n");
        check(&plan(&text.replace("START", "")), &[[2, 1]]);
        check(&plan(&text.replace("START", "start 0\n")), NONE);
        let last = flags - 1;
        let of_last = text.replace(" 0-", &format!(" {last}-"));
        check(&plan(&of_last.replace("START", "")), &[[2, 1]]);
        let set = format!("start {last}\n");
        check(&plan(&of_last.replace("START", &set)), NONE);
    }
}

/// The table of `samples/README.md`: plans of every verdict.
#[test]
fn samples() {
    let both = [[1, 2], [2, 1]];
    check(&sample("b"), &both[..1]);
    check(&sample("calibration-optional"), &[[1, 2, 5]]);
    check(&sample("restored-in-chain"), &[[1, 2, 3]]);
    check(&sample("sister"), &[[1, 2, 3]]);
    check(&sample("merged"), &[[1, 6], [6, 1]]);
    for name in ["b-without-order", "finish-together", "incondition-broken"] {
        check(&sample(name), &both);
    }
    check(&sample("restored-unordered"), &[[1, 2, 3], [2, 3, 1]]);
    let equal_waits = [[1, 2, 3], [2, 1, 3], [2, 3, 1]];
    check(&sample("equal-waits"), &equal_waits);
    check(&sample("sequence-found"), &[[4, 5, 1, 6], [5, 4, 1, 6]]);
    // Its children are 1, 2 and 7.
    let of_noisy = ANY_OF_THREE.map(|list| list.map(|child| [1, 2, 7][child - 1]));
    check(&sample("branch-blocked"), &of_noisy);
    check(&sample("generated"), &[[1, 2, 3], [1, 3, 2], [3, 1, 2]]);
    check(
        &sample("members"),
        &[[1, 4, 7, 10], [1, 4, 10, 7], [1, 10, 4, 7], [10, 1, 4, 7]],
    );
    for name in [
        "b-flag-set",
        "preconditions-ordered",
        "preconditions-unordered",
        "restored-by-choice",
    ] {
        check(&sample(name), NONE);
    }
    for name in ["nodes-128", "large", "one-task", "minutes-10080"] {
        assert_eq!(returned(&sample(name)), 23, "{name}");
    }
}
