//! The order of starts in a state (02, 107).

use reference::model::calls::Call;
use reference::model::events::Event::{Finish, Skip, Start};

use crate::{make, plan, sample};

/// The calls that check a state, on tasks that wait, run and are done and on no node.
fn checking() -> [Call; 10] {
    [
        Call::Status,
        Call::Event(Start(3)),
        Call::Event(Start(4)),
        Call::Event(Start(9)),
        Call::Event(Finish(1)),
        Call::Event(Finish(4)),
        Call::Event(Finish(9)),
        Call::Event(Skip(2)),
        Call::FinishTogether(vec![4]),
        Call::FinishTogether(vec![9, 9]),
    ]
}

/// A state of B with this flag byte, these statuses and these places.
fn state(flags: u8, statuses: [u8; 5], places: [u16; 5]) -> Vec<u8> {
    let places = places.map(u16::to_le_bytes).concat();
    [&[flags, 0, 0, 0, 0, 0, 0, 0][..], &statuses, &places].concat()
}

/// The call returns this and leaves these bytes.
#[track_caller]
fn check(call: &Call, plan: &[u8], before: &[u8], want: u32, after: &[u8]) {
    let mut lent = before.to_vec();
    assert_eq!(make(call, plan, &mut lent), want, "{call:?}");
    assert_eq!(lent, after, "{call:?}");
}

/// B after start 1, finish 1, start 4: the bytes as they stand.
#[test]
fn bytes_of_b() {
    let mut lent = [7; 23];
    let calls = [Start(1), Finish(1), Start(4)].map(Call::Event);
    for call in [Call::Fresh].into_iter().chain(calls) {
        assert_eq!(make(&call, &sample("b"), &mut lent), 0, "{call:?}");
    }
    let want = [
        2, 0, 0, 0, 0, 0, 0, 0, // flag 1 is set
        0, 2, 0, 0, 1, // CAST is done, SATL runs
        0, 0, 1, 0, 0, 0, 0, 0, 2, 0, // CAST began first, SATL second
    ];
    assert_eq!(lent, want);
    assert_eq!(want[..], state(2, [0, 2, 0, 0, 1], [0, 1, 0, 0, 2]));
}

/// Places go by the calls, not by the nodes; finishes and refused calls take none.
#[test]
fn order_of_calls() {
    let plan = plan(
        "flags 1\n0 ROOT all-of\n1 A--- task 0 under 0 needs 0-set\n\
         2 B--- task 0 under 0 holds 0-set leaves 0-set\n\
         3 C--- task 0 under 0 holds 0-clear leaves 0-clear\n4 D--- task 0 under 0\norder 2 4\n",
    );
    let mut lent = [7; 23];
    assert_eq!(make(&Call::Fresh, &plan, &mut lent), 0);
    for (event, returned, places) in [
        (Start(0), 17, [0, 0, 0, 0, 0]),
        (Start(5), 17, [0, 0, 0, 0, 0]),
        (Start(4), 20, [0, 0, 0, 0, 0]),
        (Start(1), 21, [0, 0, 0, 0, 0]),
        (Finish(3), 18, [0, 0, 0, 0, 0]),
        (Start(3), 0, [0, 0, 0, 1, 0]),
        (Start(3), 18, [0, 0, 0, 1, 0]),
        (Start(2), 22, [0, 0, 0, 1, 0]),
        (Finish(3), 0, [0, 0, 0, 1, 0]),
        (Start(3), 18, [0, 0, 0, 1, 0]),
        (Start(2), 0, [0, 0, 2, 1, 0]),
        (Start(4), 20, [0, 0, 2, 1, 0]),
        (Finish(2), 0, [0, 0, 2, 1, 0]),
        (Start(4), 0, [0, 0, 2, 1, 3]),
        (Start(1), 0, [0, 4, 2, 1, 3]),
        (Finish(4), 0, [0, 4, 2, 1, 3]),
        (Finish(1), 0, [0, 4, 2, 1, 3]),
    ] {
        let made = make(&Call::Event(event), &plan, &mut lent);
        assert_eq!(made, returned, "{event:?}");
        let want = places.map(|place| [place, 0]).concat();
        assert_eq!(lent[13..], want, "{event:?}");
    }
}

/// Wrong places where CAST is done and SATL runs, which are to have 1 and 2.
const WRONG: [[u16; 5]; 24] = [
    // a gap, and with it a place above the count
    [0, 1, 0, 0, 3],
    [0, 2, 0, 0, 3],
    [0, 3, 0, 0, 2],
    [0, 1, 0, 0, 65_535],
    // a repeated place
    [0, 1, 0, 0, 1],
    [0, 2, 0, 0, 2],
    // a place at a waiting task
    [0, 1, 0, 1, 2],
    [0, 1, 0, 3, 2],
    [0, 1, 0, 2, 0],
    [0, 2, 0, 1, 3],
    // a place at a group
    [1, 1, 0, 0, 2],
    [3, 1, 0, 0, 2],
    [0, 1, 3, 0, 2],
    [1, 2, 0, 0, 3],
    // none at a started task
    [0, 0, 0, 0, 0],
    [0, 0, 0, 0, 1],
    [0, 0, 0, 0, 2],
    [0, 1, 0, 0, 0],
    // the high byte
    [0, 257, 0, 0, 2],
    [0, 1, 0, 0, 258],
    [0, 1, 0, 256, 2],
    [256, 1, 0, 0, 2],
    [0, 1, 32_768, 0, 2],
    [0, 256, 0, 0, 512],
];

#[test]
fn malformed() {
    let b = sample("b");
    let statuses = [0, 2, 0, 0, 1];
    for places in WRONG {
        let state = state(2, statuses, places);
        for call in &checking() {
            check(call, &b, &state, 16, &state);
        }
        check(&Call::Fresh, &b, &state, 0, &[0; 23]);
    }
    let right = state(2, statuses, [0, 1, 0, 0, 2]);
    for (call, want) in checking()
        .iter()
        .zip([129, 19, 18, 17, 18, 0, 17, 27, 0, 25])
    {
        let mut lent = right.clone();
        assert_eq!(make(call, &b, &mut lent), want, "{call:?}");
    }
}

/// The places of one state with the statuses of another.
#[test]
fn malformed_by_status() {
    let b = sample("b");
    for (statuses, places) in [
        ([0, 0, 0, 0, 0], [0, 1, 0, 0, 0]),
        ([0, 1, 0, 0, 0], [0, 0, 0, 0, 0]),
        ([0, 2, 0, 0, 0], [0, 0, 0, 0, 1]),
        ([0, 2, 0, 0, 0], [0, 1, 0, 0, 2]),
        ([0, 2, 0, 1, 0], [0, 1, 0, 0, 2]),
        ([0, 2, 0, 1, 1], [0, 1, 0, 0, 2]),
    ] {
        let state = state(0, statuses, places);
        for call in &checking() {
            check(call, &b, &state, 16, &state);
        }
    }
}

/// Without the last byte of a state, and without its places; what it holds does not matter.
#[test]
fn too_short() {
    let b = sample("b");
    let right = state(2, [0, 2, 0, 0, 1], [0, 1, 0, 0, 2]);
    for whole in [right, vec![255; 23], vec![0; 23]] {
        for len in [22, 21, 14, 13, 12, 8, 0] {
            for call in checking().iter().chain([&Call::Fresh]) {
                check(call, &b, &whole[..len], 15, &whole[..len]);
            }
        }
    }
}

/// Bytes after 8 + 3N are kept, and matter to no call.
#[test]
fn later_bytes() {
    let b = sample("b");
    let later = [1, 0, 255, 2];
    let longer = |state: Vec<u8>| [&state[..], &later].concat();
    let fresh = longer(state(0, [0; 5], [0; 5]));
    let casting = longer(state(1, [0, 1, 0, 0, 0], [0, 1, 0, 0, 0]));
    let cast = longer(state(0, [0, 2, 0, 0, 0], [0, 1, 0, 0, 0]));
    let any = longer(vec![255; 23]);
    check(&Call::Fresh, &b, &any, 0, &fresh);
    check(&Call::Event(Start(1)), &b, &fresh, 0, &casting);
    check(&Call::Event(Finish(1)), &b, &casting, 0, &cast);
    check(&Call::Status, &b, &cast, 129, &cast);
}

/// Well formed, though no run has it: 16 asks nothing more of the order.
#[test]
fn orders_of_no_run() {
    let b = sample("b");
    // SATL before CAST.
    let places = [0, 2, 0, 0, 1];
    let before = state(2, [0, 2, 0, 0, 1], places);
    let after = state(0, [0, 2, 0, 0, 2], places);
    check(&Call::Status, &b, &before, 129, &before);
    check(&Call::Event(Start(3)), &b, &before, 19, &before);
    check(&Call::Event(Finish(4)), &b, &before, 0, &after);
    check(&Call::Status, &b, &after, 128, &after);
    // CAST after both branches of the choice.
    let before = state(0, [0, 0, 0, 2, 2], [0, 0, 0, 2, 1]);
    let after = state(1, [0, 1, 0, 2, 2], [0, 3, 0, 2, 1]);
    check(&Call::Event(Start(1)), &b, &before, 0, &after);
    let last = state(0, [0, 2, 0, 2, 2], [0, 3, 0, 2, 1]);
    check(&Call::Event(Finish(1)), &b, &after, 0, &last);
}

/// The smallest state.
#[test]
fn one_task() {
    let plan = sample("one-task");
    let mut lent = [7; 12];
    for (call, status, place) in [
        (Call::Fresh, 0, 0),
        (Call::Event(Start(0)), 1, 1),
        (Call::Event(Finish(0)), 2, 1),
    ] {
        assert_eq!(make(&call, &plan, &mut lent), 0, "{call:?}");
        assert_eq!(lent, [0, 0, 0, 0, 0, 0, 0, 0, status, place, 0, 7]);
    }
}

/// The largest state: 127 tasks start, from the last to the first, every other one of which
/// finishes before the next starts.
#[test]
fn most_starts() {
    let plan = sample("nodes-128");
    let mut lent = [7; 392 + 5];
    assert_eq!(make(&Call::Fresh, &plan, &mut lent), 0);
    let mut want = [0; 392 + 5];
    want[392..].fill(7);
    for task in (1..128).rev() {
        assert_eq!(make(&Call::Event(Start(task)), &plan, &mut lent), 0);
        want[8 + task] = 1;
        want[8 + 128 + 2 * task] = 128 - task as u8;
        assert_eq!(lent, want);
        if task % 2 == 0 {
            assert_eq!(make(&Call::Event(Finish(task)), &plan, &mut lent), 0);
            want[8 + task] = 2;
            assert_eq!(lent, want);
        }
    }
    check(&Call::Status, &plan, &lent, 129, &lent);
    // At any of them another's place, or one above the count.
    for task in 1..128 {
        let mut wrong = lent;
        wrong[8 + 128 + 2 * task] = 1 + (128 - task as u8) % 127;
        check(&Call::Status, &plan, &wrong, 16, &wrong);
        wrong[8 + 128 + 2 * task] = 128;
        check(&Call::Status, &plan, &wrong, 16, &wrong);
    }
}
