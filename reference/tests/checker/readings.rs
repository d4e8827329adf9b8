//! Places of 01 that could be read in two ways, each with a plan that tells the readings apart.

use reference::model::calls::Call;
use reference::model::events::Event::{Finish, Start};
use reference::model::listing::printed;
use reference::model::rules::refusal;
use reference::tools::search::search;

use crate::{entries, fields, make, plan, returns, sample, verdict, CLEAR, DOOMED, OPEN};

/// A task's own start is no earlier event: what it needs and holds is needed from outside.
#[test]
fn need_and_hold_of_one_task() {
    let task = "0 CAST task 0 needs 0-clear holds 0-set leaves 0-clear\n";
    let clear = plan(&format!("flags 1\n{task}"));
    assert_eq!(
        entries(&clear, 0),
        [[1, 1, 1, 1, 0, 0, 0, 0], [0, 0, 0, 0, 1, 1, 0, 0]]
    );
    assert_eq!(verdict(&clear), CLEAR);
    let set = plan(&format!("flags 1\nstart 0\n{task}"));
    assert_eq!(verdict(&set), DOOMED);
    assert_eq!(returns(&set, &[Start(0)]), [21]);
}

/// Writing the value that a flag has already is a touch.
#[test]
fn touch_without_change() {
    let leaves_clear = "1 A--- task 0 under 0 leaves 0-clear\n";
    let needs = |sign| format!("2 Z--- task 0 under 0 needs 0-{sign}\norder 1 2\n");
    let covered = plan(&format!(
        "flags 1\n0 ROOT all-of\n{leaves_clear}{}",
        needs("clear")
    ));
    assert_eq!(
        entries(&covered, 0),
        [[0, 0, 1, 1, 0, 0, 0, 0], [0, 0, 0, 0, 0, 0, 0, 0]]
    );
    // Not needed from outside, but the touch makes the opposite true.
    let clobbered = plan(&format!(
        "flags 1\n0 ROOT all-of\n{leaves_clear}{}",
        needs("set")
    ));
    assert_eq!(
        entries(&clobbered, 0),
        [[0, 0, 1, 1, 0, 0, 0, 0], [0, 0, 0, 0, 0, 0, 1, 1]]
    );
}

/// A hold is broken by writing its opposite, whatever the flag's value is.
#[test]
fn hold_on_a_flag_that_differs() {
    let plan = sample("incondition-broken");
    // A and Z run, and the flag is clear although A holds it set.
    let mut state = [0, 0, 0, 0, 0, 0, 0, 0, 0, 1, 1, 0, 0, 1, 0, 2, 0];
    let before = state;
    assert_eq!(make(&Call::Event(Finish(2)), &plan, &mut state), 22);
    assert_eq!(state, before);
    // A's own finish breaks nothing of another.
    assert_eq!(make(&Call::Event(Finish(1)), &plan, &mut state), 0);
    assert_eq!(state, [0, 0, 0, 0, 0, 0, 0, 0, 0, 2, 1, 0, 0, 1, 0, 2, 0]);
}

/// Writing what another holds breaks nothing.
#[test]
fn hold_written_alike() {
    let plan = plan(
        "flags 1\n0 ROOT all-of\n1 A--- task 0 under 0 holds 0-set leaves 0-set\n\
         2 Z--- task 0 under 0 holds 0-set leaves 0-set\n",
    );
    assert_eq!(verdict(&plan), CLEAR);
    let both = [Start(1), Start(2), Finish(2), Finish(1)];
    assert_eq!(returns(&plan, &both), [0; 4]);
}

/// Two branches of a choice are taken: then 19 meets every further start below it.
#[test]
fn two_branches_taken() {
    let plan = plan(
        "flags 1\n0 PICK any-of\n1 GRP- all-of under 0\n2 ONE- task 0 under 1\n\
         3 TWO- task 0 under 1\n4 LAST task 0 under 0\n",
    );
    // ONE is done and LAST runs, started in this order: statuses, then places.
    let mut state = [0; 23];
    (state[10], state[12]) = (2, 1);
    (state[17], state[21]) = (1, 2);
    assert_eq!(make(&Call::Event(Start(3)), &plan, &mut state), 19);
    assert_eq!(make(&Call::Status, &plan, &mut state), 129);
    assert_eq!(make(&Call::Event(Finish(4)), &plan, &mut state), 0);
    assert_eq!(make(&Call::Status, &plan, &mut state), 128);
    // With its own branch alone taken, it may start.
    (state[12], state[21]) = (0, 0);
    assert_eq!(make(&Call::Event(Start(3)), &plan, &mut state), 0);
}

/// The listing asks for 2,048 bytes even where its text is short; the lower refusal comes first.
#[test]
fn output_too_short() {
    let b = sample("b");
    for (len, want) in [(0, 15), (32, 15), (2047, 15), (2048, 256 + 32)] {
        assert_eq!(make(&Call::Listing, &b, &mut vec![0; len]), want, "{len}");
    }
    for (node, len, want) in [(4, 32, 0), (4, 31, 15), (5, 32, 17), (5, 31, 15)] {
        let mut out = vec![0; len];
        assert_eq!(
            make(&Call::Summary(node), &b, &mut out),
            want,
            "{node}, {len}"
        );
    }
}

/// An OPEN plan that no list completes.
#[test]
fn open_and_never_complete() {
    let plan = plan(
        "flags 1\nstart 0\n0 ROOT all-of\n1 A--- task 0 under 0 leaves 0-set\n\
         2 Z--- task 0 under 0 needs 0-clear\n",
    );
    assert_eq!(verdict(&plan), OPEN);
    let found = search(&fields(&plan), &[]);
    assert!(found.conflict && !found.completable);
}

/// A plan is at most 5,136 bytes long, so that nothing past 5,137 matters.
#[test]
fn input_past_the_longest_plan() {
    let mut input = sample("large");
    assert_eq!(input.len(), 5_136);
    assert!(printed(&input).starts_with("OPEN ") || printed(&input).starts_with("DOOMED "));
    for more in [1, 2, 1_000, 100_000] {
        input.resize(5_136 + more, 0);
        assert_eq!(refusal(&input), 3);
        assert_eq!(printed(&input), "REFUSED 3\n");
    }
}
