//! States with skipped groups, byte by byte.

use reference::model::calls::Call;
use reference::model::events::Event::{Finish, Skip, Start};

use super::{BEFORE, COMPLETE, IN_BRANCH, UNFINISHED};
use crate::{make, plan, state};

/// The call returns this and leaves these bytes.
#[track_caller]
fn leaves(call: &Call, before: &[u8], want: u32, after: &[u8]) {
    let mut lent = before.to_vec();
    assert_eq!(make(call, &plan(BEFORE), &mut lent), want, "{call:?}");
    assert_eq!(lent, after, "{call:?}");
}

/// A skip writes the group's byte, and takes no place among the starts.
#[test]
fn written_bytes() {
    let later = |state: Vec<u8>| [&state[..], &[7, 7]].concat();
    for flags in [0, 1] {
        let before = later(state(flags, [0; 5], [0; 5]));
        let skipped = later(state(flags, [0, 2, 0, 0, 0], [0; 5]));
        let started = later(state(flags, [0, 2, 0, 0, 1], [0, 0, 0, 0, 1]));
        leaves(&Call::Event(Skip(1)), &before, 0, &skipped);
        leaves(&Call::Event(Skip(1)), &skipped, 18, &skipped);
        leaves(&Call::Event(Start(4)), &skipped, 0, &started);
    }
    // Though T was started before, which no run permits.
    let before = state(1, [0, 0, 0, 0, 1], [0, 0, 0, 0, 1]);
    let after = state(1, [0, 2, 0, 0, 1], [0, 0, 0, 0, 1]);
    leaves(&Call::Event(Skip(1)), &before, 0, &after);
}

/// The calls that check a state.
fn checking() -> [Call; 5] {
    [
        Call::Status,
        Call::Event(Start(4)),
        Call::Event(Finish(2)),
        Call::Event(Skip(1)),
        Call::FinishTogether(vec![2]),
    ]
}

/// At an optional group 0 and 2 pass, at other groups 0; a skipped group has no place.
#[test]
fn malformed_states() {
    let with = |node: usize, byte: u8| {
        let mut statuses = [0; 5];
        statuses[node] = byte;
        state(0, statuses, [0; 5])
    };
    let placed = |place: [u8; 5]| state(0, [0, 2, 0, 0, 0], place);
    for malformed in [
        with(1, 1),
        with(1, 3),
        with(1, 255),
        with(0, 1),
        with(0, 2),
        placed([0, 1, 0, 0, 0]),
        placed([0, 2, 0, 0, 0]),
        placed([1, 0, 0, 0, 0]),
    ] {
        for call in checking() {
            leaves(&call, &malformed, 16, &malformed);
        }
    }
    // A group that is not skipped has none either, and starts are counted without skips.
    let waiting = state(0, [0; 5], [0, 1, 0, 0, 0]);
    let second = state(0, [0, 2, 0, 0, 1], [0, 0, 0, 0, 2]);
    let first = state(0, [0, 2, 0, 0, 1], [0, 0, 0, 0, 1]);
    leaves(&Call::Status, &waiting, 16, &waiting);
    leaves(&Call::Status, &second, 16, &second);
    leaves(&Call::Status, &first, UNFINISHED, &first);
    leaves(&Call::Status, &with(1, 2), UNFINISHED, &with(1, 2));
}

/// Each byte at an any-of, an all-of and an optional group.
#[test]
fn bytes_of_groups() {
    let plan = plan(IN_BRANCH);
    for (node, passing) in [(0, &[0][..]), (1, &[0]), (2, &[0, 2])] {
        for byte in 0..=255 {
            let mut lent = [0; 8 + 3 * 6];
            lent[8 + node] = byte;
            let want = match passing.contains(&byte) {
                true => UNFINISHED,
                false => 16,
            };
            let returned = make(&Call::Status, &plan, &mut lent);
            assert_eq!(returned, want, "{byte} at {node}");
        }
    }
}

/// Skipped and begun, which no run reaches: the branch without tasks is another one for each task.
#[test]
fn skipped_and_begun() {
    let before = state(0, [0, 2, 1, 0, 0], [0, 0, 1, 0, 0]);
    let after = state(0, [0, 2, 2, 0, 0], [0, 0, 1, 0, 0]);
    leaves(&Call::Event(Skip(1)), &before, 18, &before);
    leaves(&Call::Event(Start(3)), &before, 19, &before);
    leaves(&Call::Event(Finish(2)), &before, 0, &after);
    // In its own branch, too.
    let plan = plan(
        "flags 1\n0 ROOT optional\n1 GRP- all-of under 0\n2 A--- task 0 under 1\n\
         3 B--- task 0 under 1\n",
    );
    let mut lent = [&[0; 8][..], &[2, 0, 1, 0], &[0, 0, 0, 0, 1, 0, 0, 0]].concat();
    assert_eq!(make(&Call::Event(Start(3)), &plan, &mut lent), 19);
    assert_eq!(make(&Call::Status, &plan, &mut lent), COMPLETE);
}
