//! Plans with optional groups: rules, verdicts and marks.

use reference::model::calls::Call;
use reference::model::format::{Plan, OPTIONAL};

use super::BEFORE;
use crate::{entries, fields, make, plan, verdict, CLEAR, DOOMED, OPEN};

/// Kind 3 is a group in the rules 6 to 9 and 13.
#[test]
fn rules() {
    let good = fields(&plan(BEFORE));
    let refusal = |change: fn(&mut Plan)| {
        let mut plan = good.clone();
        change(&mut plan);
        make(&Call::Refusal, &plan.bytes(), &mut [])
    };
    assert_eq!(refusal(|_| {}), 0);
    assert_eq!(refusal(|plan| plan.nodes[1].kind = 4), 6);
    assert_eq!(refusal(|plan| plan.nodes[1].minutes = 1), 6);
    assert_eq!(refusal(|plan| plan.nodes[4].kind = OPTIONAL), 8);
    let on_group = |plan: &mut Plan| {
        let on_task = Plan::one_task(1).pre(0, 0).conditions[0];
        plan.conditions = vec![on_task];
        plan.conditions[0].node = 1;
    };
    assert_eq!(refusal(on_group), 9);
    // Between its children; and from a child of another group into it.
    assert_eq!(refusal(|plan| plan.orders[0].earlier = 3), 13);
    let between = |plan: &mut Plan| (plan.orders[0].earlier, plan.orders[0].later) = (2, 3);
    assert_eq!(refusal(between), 13);
}

/// The verdict where a group is an all-of, an any-of and an optional one.
#[track_caller]
fn verdicts(text: &str, want: [u32; 3]) {
    let kinds = ["all-of", "any-of", "optional"];
    let found = kinds.map(|kind| verdict(&plan(&text.replace("KIND", kind))));
    assert_eq!(found, want, "{text}");
}

/// What cannot be completed is no longer doomed once it may be skipped, and what came from it is no
/// longer sure.
#[test]
fn verdicts_by_kind() {
    // A leaves the flag set, C needs it clear.
    verdicts(
        "flags 1\n0 ROOT all-of\n1 DROP KIND under 0\n2 GRP- all-of under 1\n\
         3 A--- task 0 under 2 leaves 0-set\n4 C--- task 0 under 2 needs 0-clear\norder 3 4\n",
        [DOOMED, DOOMED, OPEN],
    );
    verdicts(
        "flags 1\n0 ROOT all-of\n1 A--- task 0 under 0 leaves 0-set\n2 DROP KIND under 0\n\
         3 C--- task 0 under 2 needs 0-clear\norder 1 2\n",
        [DOOMED, DOOMED, OPEN],
    );
    // Needed, and false at the start.
    verdicts(
        "flags 1\n0 DROP KIND\n1 A--- task 0 under 0 needs 0-set\n",
        [DOOMED, DOOMED, OPEN],
    );
    // DROP leaves what Z needs.
    verdicts(
        "flags 1\n0 ROOT all-of\n1 DROP KIND under 0\n2 A--- task 0 under 1 leaves 0-set\n\
         3 Z--- task 0 under 0 needs 0-set\norder 1 3\n",
        [CLEAR, CLEAR, OPEN],
    );
    // It restores what Z needs.
    verdicts(
        "flags 1\n0 ROOT all-of\n1 A--- task 0 under 0 leaves 0-set\n2 DROP KIND under 0\n\
         3 C--- task 0 under 2 leaves 0-clear\n4 Z--- task 0 under 0 needs 0-clear\norder 1 2\n\
         order 2 4\n",
        [CLEAR, CLEAR, OPEN],
    );
    // Two branches of an optional group do not clash.
    verdicts(
        "flags 1\n0 DROP KIND\n1 A--- task 0 under 0 leaves 0-set\n\
         2 Z--- task 0 under 0 needs 0-clear\n",
        [OPEN, CLEAR, CLEAR],
    );
}

/// The marks of an optional group: may as at an any-of group, must and doom never.
#[test]
fn marks() {
    let task = "A--- task 0 under 0 needs 0-clear holds 1-set leaves 1-clear";
    let marked = |kind: &str| entries(&plan(&format!("flags 2\n0 DROP {kind}\n1 {task}\n")), 0);
    let none = [0; 8];
    assert_eq!(
        marked("any-of"),
        [
            [1, 1, 0, 0, 0, 0, 0, 0],
            none,
            [0, 0, 1, 1, 0, 0, 0, 0],
            [0, 0, 0, 0, 1, 1, 0, 0],
        ]
    );
    assert_eq!(
        marked("optional"),
        [
            [1, 0, 0, 0, 0, 0, 0, 0],
            none,
            [0, 0, 1, 0, 0, 0, 0, 0],
            [0, 0, 0, 0, 1, 0, 0, 0],
        ]
    );
    let doomed = "1 GRP- all-of under 0\n2 A--- task 0 under 1 leaves 0-set\n\
        3 C--- task 0 under 1 needs 0-clear\norder 2 3\n";
    let clobbered = |kind: &str| {
        let text = format!("flags 1\n0 DROP {kind}\n{doomed}");
        entries(&plan(&text), 0)[0]
    };
    assert_eq!(clobbered("any-of"), [0, 0, 0, 0, 0, 0, 1, 1]);
    assert_eq!(clobbered("optional"), [0, 0, 0, 0, 0, 0, 1, 0]);
}

/// The marks of an all-of group with an optional one in it, which lets pass what was before.
#[test]
fn marks_above() {
    // DROP leaves flag 0 clear or nothing, between A, which leaves it set, and Z, which needs it
    // clear.
    let text = "flags 1\n0 ROOT all-of\n1 A--- task 0 under 0 leaves 0-set\n\
        2 DROP optional under 0\n3 C--- task 0 under 2 leaves 0-clear\n\
        4 Z--- task 0 under 0 needs 0-clear\norder 1 2\norder 2 4\n";
    let found = entries(&plan(text), 0);
    assert_eq!(found, [[0, 0, 1, 0, 0, 0, 1, 0], [0, 0, 1, 0, 0, 0, 0, 0]]);
    // DROP needs flag 0 clear or nothing, and so does Z after it.
    let text =
        "flags 1\n0 ROOT all-of\n1 DROP optional under 0\n2 A--- task 0 under 1 needs 0-clear\n\
        3 Z--- task 0 under 0 needs 0-clear leaves 0-clear\norder 1 3\n";
    let found = entries(&plan(text), 0);
    assert_eq!(found, [[1, 1, 1, 1, 0, 0, 0, 0], [0, 0, 0, 0, 0, 0, 0, 0]]);
}
