//! States with something at a blocked node, or under one.

use reference::model::calls::Call;

use super::{check, finish, skip, start, together, NESTED, UNFINISHED};
use crate::{make_blocking, plan, state};

const NODES: usize = 14;

/// The calls that check a state.
fn checking() -> [Call; 5] {
    [Call::Status, start(1), finish(1), skip(11), together(&[1])]
}

/// A state with this byte and this place at the node.
fn with(node: usize, byte: u8, place: u8) -> Vec<u8> {
    let (mut bytes, mut places) = ([0; NODES], [0; NODES]);
    (bytes[node], places[node]) = (byte, place);
    state(0, bytes, places)
}

/// What passes for the whole plan is malformed where the node is absent.
#[test]
fn bytes_and_places() {
    let plan = plan(NESTED);
    let fine = [with(4, 1, 1), with(6, 2, 1), with(9, 1, 1), with(5, 2, 0)];
    for lent in fine {
        check(&plan, &[], &lent, &[(Call::Status, UNFINISHED)]);
        check(&plan, &[12], &lent, &[(Call::Status, UNFINISHED)]);
        for call in checking() {
            check(&plan, &[3], &lent, &[(call.clone(), 16)]);
            check(&plan, &[3, 12, 13], &lent, &[(call, 16)]);
        }
    }
    // A place alone, low or high, is malformed in any case.
    for node in 3..=9 {
        for lent in [with(node, 0, 1), with(node, 1, 0), with(node, 3, 0)] {
            check(&plan, &[3], &lent, &[(Call::Status, 16)]);
        }
        let mut high = with(0, 0, 0);
        high[8 + NODES + 2 * node + 1] = 1;
        check(&plan, &[3], &high, &[(Call::Status, 16)]);
    }
}

/// A blocked node itself, and the group of which a branch is blocked, which may be skipped.
#[test]
fn at_the_node_alone() {
    let plan = plan(NESTED);
    let running = with(12, 1, 1);
    check(&plan, &[12], &running, &[(Call::Status, 16)]);
    check(&plan, &[13], &running, &[(Call::Status, UNFINISHED)]);
    let skipped = with(11, 2, 0);
    for blocked in [&[12][..], &[12, 13], &[3, 13]] {
        check(&plan, blocked, &skipped, &[(Call::Status, UNFINISHED)]);
    }
}

/// Where another node has a place too: each of 1 to the count is there, but one at an absent node.
#[test]
fn places_that_fit_the_whole_plan() {
    let plan = plan(NESTED);
    let mut bytes = [0; NODES];
    let mut places = [0; NODES];
    (bytes[1], bytes[12], bytes[10]) = (2, 1, 1);
    (places[1], places[12], places[10]) = (1, 2, 3);
    let lent = state(0, bytes, places);
    check(
        &plan,
        &[13],
        &lent,
        &[(Call::Status, UNFINISHED), (finish(12), 0)],
    );
    check(&plan, &[12], &lent, &[(Call::Status, 16), (finish(10), 16)]);
    check(&plan, &[10], &lent, &[(Call::Status, 16), (finish(12), 16)]);
    // With a gap where the absent one was: malformed as ever.
    (bytes[12], places[12]) = (0, 0);
    check(
        &plan,
        &[12],
        &state(0, bytes, places),
        &[(Call::Status, 16)],
    );
}

/// Fresh writes zeros at absent nodes too, and does not look at what was there.
#[test]
fn fresh() {
    let plan = plan(NESTED);
    let mut lent = vec![255; 8 + 3 * NODES + 3];
    assert_eq!(make_blocking(&Call::Fresh, &plan, &[3], &mut lent), 0);
    let zeros = [0; 8 + 3 * NODES];
    assert_eq!(lent, [&zeros[..], &[255; 3]].concat());
}
