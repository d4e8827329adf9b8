//! Refusals 15 to 22 and 27: with several causes at once the first in the order of checks is
//! returned.

use reference::model::calls::Call;
use reference::model::events::Event::{Finish, Skip, Start};

use crate::{make, plan, sample};

/// A plan in which task 5 can meet every refusal of a start.
const PLAN: &str = "flags 2\n0 ROOT all-of\n1 A--- task 0 under 0 holds 0-set leaves 0-clear\n\
    2 B--- task 0 under 0\n3 PICK any-of under 0\n4 C--- task 0 under 3\n\
    5 D--- task 0 under 3 needs 1-set holds 0-clear leaves 0-clear\norder 2 3\n";

/// The call's return. A refused call must leave the state as it was.
#[track_caller]
fn returned(plan: &[u8], state: &[u8], call: &Call) -> u32 {
    let mut lent = state.to_vec();
    let returned = make(call, plan, &mut lent);
    assert!(returned == 0 || lent == state, "{call:?}");
    returned
}

/// A state of that plan with this flag byte and these statuses.
fn state(flags: u8, statuses: [u8; 6]) -> Vec<u8> {
    with_tasks(&[1, 2, 4, 5], flags, &statuses)
}

/// A state with this flag byte and these statuses; the tasks were started in the order of their
/// numbers.
fn with_tasks(tasks: &[usize], flags: u8, statuses: &[u8]) -> Vec<u8> {
    let mut places = vec![0; 2 * statuses.len()];
    let started = tasks.iter().filter(|&&task| statuses[task] != 0);
    for (place, task) in (1..).zip(started) {
        places[2 * task] = place;
    }
    [&[flags, 0, 0, 0, 0, 0, 0, 0][..], statuses, &places].concat()
}

#[test]
fn causes_taken_away_one_by_one() {
    let plan = plan(PLAN);
    // All causes at once; a number that is no task hides those after it.
    let short_and_malformed = [255; 25];
    for (state, number, want) in [
        (short_and_malformed.to_vec(), 3, 15),
        (state(255, [1, 1, 0, 0, 1, 0]), 3, 16),
        (state(0, [1, 1, 0, 0, 1, 0]), 3, 16),
        (state(0, [0, 1, 0, 0, 1, 3]), 3, 16),
        (state(0, [0, 1, 0, 0, 1, 1]), 3, 17),
        (state(0, [0, 1, 0, 0, 1, 1]), 6, 17),
        (state(0, [0, 1, 0, 0, 1, 1]), usize::MAX, 17),
        (state(0, [0, 1, 0, 0, 1, 1]), 5 + 256, 17),
        (state(0, [0, 1, 0, 0, 1, 1]), 5, 18),
        (state(0, [0, 1, 0, 0, 1, 2]), 5, 18),
        (state(0, [0, 1, 0, 0, 1, 0]), 5, 19),
        (state(0, [0, 1, 0, 0, 2, 0]), 5, 19),
        (state(0, [0, 1, 0, 0, 0, 0]), 5, 20),
        (state(0, [0, 1, 1, 0, 0, 0]), 5, 20),
        (state(0, [0, 1, 2, 0, 0, 0]), 5, 21),
        (state(1, [0, 1, 2, 0, 0, 0]), 5, 21),
        (state(2, [0, 1, 2, 0, 0, 0]), 5, 22),
        (state(2, [0, 2, 2, 0, 0, 0]), 5, 0),
        (state(2, [0, 0, 2, 0, 0, 0]), 5, 0),
    ] {
        let call = Call::Event(Start(number));
        assert_eq!(returned(&plan, &state, &call), want, "{state:?}");
    }
}

/// A finish knows no 19, 20 and 21.
#[test]
fn causes_for_a_finish() {
    let plan = plan(PLAN);
    for (state, number, want) in [
        (state(255, [0; 6])[..25].to_vec(), 3, 15),
        (state(4, [0; 6]), 3, 16),
        (state(0, [0; 6]), 3, 17),
        (state(0, [0; 6]), 5, 18),
        (state(0, [0, 1, 0, 0, 1, 2]), 5, 18),
        (state(0, [0, 1, 0, 0, 1, 1]), 5, 22),
        (state(0, [0, 0, 0, 0, 1, 1]), 5, 0),
    ] {
        let call = Call::Event(Finish(number));
        assert_eq!(returned(&plan, &state, &call), want, "{state:?}");
    }
}

/// A plan in which group 5 can meet every refusal of a skip.
const OPTIONAL: &str = "flags 2\n0 ROOT all-of\n1 A--- task 0 under 0 holds 0-set leaves 0-clear\n\
    2 PICK any-of under 0\n3 B--- task 0 under 2\n4 GRP- all-of under 2\n5 DROP optional under 4\n\
    6 C--- task 0 under 5 needs 1-set\norder 1 2\n";

/// A skip knows no 21 and 22.
#[test]
fn causes_for_a_skip() {
    let plan = plan(OPTIONAL);
    let state = |flags, statuses: [u8; 7]| with_tasks(&[1, 3, 6], flags, &statuses);
    for (state, number, want) in [
        (state(255, [0; 7])[..28].to_vec(), 3, 15),
        (state(4, [0; 7]), 3, 16),
        (state(0, [0, 1, 0, 1, 2, 0, 1]), 3, 16),
        (state(0, [0, 1, 0, 1, 0, 1, 1]), 3, 16),
        (state(0, [0, 1, 0, 1, 0, 3, 1]), 3, 16),
        (state(0, [0, 1, 0, 1, 0, 2, 1]), 3, 27),
        (state(0, [0, 1, 0, 1, 0, 2, 1]), 4, 27),
        (state(0, [0, 1, 0, 1, 0, 2, 1]), 7, 27),
        (state(0, [0, 1, 0, 1, 0, 2, 1]), usize::MAX, 27),
        (state(0, [0, 1, 0, 1, 0, 2, 1]), 5 + 256, 27),
        (state(0, [0, 1, 0, 1, 0, 2, 1]), 5, 18),
        (state(0, [0, 1, 0, 1, 0, 2, 0]), 5, 18),
        (state(0, [0, 1, 0, 1, 0, 0, 1]), 5, 18),
        (state(0, [0, 1, 0, 1, 0, 0, 2]), 5, 18),
        (state(0, [0, 1, 0, 1, 0, 0, 0]), 5, 19),
        (state(0, [0, 1, 0, 2, 0, 0, 0]), 5, 19),
        (state(0, [0, 1, 0, 0, 0, 0, 0]), 5, 20),
        (state(0, [0, 0, 0, 0, 0, 0, 0]), 5, 20),
        (state(0, [0, 2, 0, 0, 0, 0, 0]), 5, 0),
        (state(3, [0, 2, 0, 0, 0, 0, 0]), 5, 0),
    ] {
        let call = Call::Event(Skip(number));
        assert_eq!(returned(&plan, &state, &call), want, "{state:?}");
    }
}

#[test]
fn plan_comes_first() {
    for (name, want) in [("fifteen-bytes", 1), ("nodes-129", 2), ("minutes-10081", 6)] {
        let plan = sample(name);
        for call in calls() {
            assert_eq!(returned(&plan, &[], &call), want, "{name}, {call:?}");
        }
    }
}

/// With too little memory each call that needs some returns 15.
#[test]
fn memory_comes_next() {
    let plan = sample("b");
    for call in calls() {
        assert_eq!(returned(&plan, &[255; 22], &call), 15, "{call:?}");
    }
}

/// The calls that are lent memory, on no node.
fn calls() -> [Call; 9] {
    [
        Call::Summary(9),
        Call::Fresh,
        Call::Event(Start(9)),
        Call::Event(Finish(9)),
        Call::Event(Skip(9)),
        Call::FinishTogether(vec![9, 9]),
        Call::FinishTogether(Vec::new()),
        Call::Status,
        Call::Listing,
    ]
}

/// Fresh takes over memory of any content; what is malformed concerns the others.
#[test]
fn fresh_over_a_malformed_state() {
    let plan = sample("b-flag-set");
    let mut state = [255; 24];
    assert_eq!(make(&Call::Status, &plan, &mut state), 16);
    assert_eq!(make(&Call::Fresh, &plan, &mut state), 0);
    assert_eq!((state[0], state[23]), (1, 255));
    assert_eq!(state[1..23], [0; 22]);
    assert_eq!(make(&Call::Status, &plan, &mut state), 129);
}
