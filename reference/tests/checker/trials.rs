//! The trial rows of 01.

use reference::model::calls::Call;
use reference::model::events::Event::{Finish, Start};
use reference::model::listing::printed;

use crate::{entries, listed, make, returns, sample, verdict, CLEAR, DOOMED, OPEN};

#[test]
fn verdicts() {
    for (name, want) in [
        ("b", CLEAR),
        ("b-without-order", OPEN),
        ("b-flag-set", DOOMED),
        ("incondition-broken", OPEN),
        ("preconditions-unordered", OPEN),
        ("preconditions-ordered", DOOMED),
        ("restored-in-chain", CLEAR),
        ("restored-unordered", OPEN),
        ("restored-by-choice", OPEN),
        ("fifteen-bytes", 1),
        ("nodes-0", 2),
        ("nodes-129", 2),
        ("nodes-128", CLEAR),
        ("one-task", CLEAR),
        ("one-byte-more", 3),
        ("minutes-10080", CLEAR),
        ("minutes-10081", 6),
    ] {
        assert_eq!(verdict(&sample(name)), want, "{name}");
    }
}

#[test]
fn returns_of_calls() {
    let b = sample("b");
    assert_eq!(returns(&b, &[Start(2)]), [17]);
    assert_eq!(returns(&b, &[Start(3)]), [20]);
    assert_eq!(returns(&b, &[Start(1), Start(1)]), [0, 18]);
    let branches = [Start(1), Finish(1), Start(4), Start(3)];
    assert_eq!(returns(&b, &branches), [0, 0, 0, 19]);

    let without_order = sample("b-without-order");
    assert_eq!(returns(&without_order, &[Start(1), Start(3)]), [0, 21]);

    let a_and_z = sample("incondition-broken");
    let broken = [Start(1), Start(2), Finish(2)];
    assert_eq!(returns(&a_and_z, &broken), [0, 0, 22]);
}

/// B from fresh to its end, byte by byte: flags, statuses and the places of starts.
#[test]
fn states_of_b() {
    let b = sample("b");
    let mut state = [9; 25];
    assert_eq!(make(&Call::Fresh, &b, &mut state), 0);
    assert_eq!((&state[..23], &state[23..]), (&[0; 23][..], &[9; 2][..]));
    for (event, returned, flags, tasks, places, status) in [
        (Start(3), 20, 0, [0, 0, 0, 0, 0], [0, 0, 0, 0, 0], 129),
        (Start(1), 0, 1, [0, 1, 0, 0, 0], [0, 1, 0, 0, 0], 129),
        (Start(4), 20, 1, [0, 1, 0, 0, 0], [0, 1, 0, 0, 0], 129),
        (Finish(1), 0, 0, [0, 2, 0, 0, 0], [0, 1, 0, 0, 0], 129),
        (Start(4), 0, 2, [0, 2, 0, 0, 1], [0, 1, 0, 0, 2], 129),
        (Start(3), 19, 2, [0, 2, 0, 0, 1], [0, 1, 0, 0, 2], 129),
        (Finish(4), 0, 0, [0, 2, 0, 0, 2], [0, 1, 0, 0, 2], 128),
        (Start(3), 19, 0, [0, 2, 0, 0, 2], [0, 1, 0, 0, 2], 128),
    ] {
        assert_eq!(make(&Call::Event(event), &b, &mut state), returned);
        assert_eq!(state[0], flags, "{event:?}");
        assert_eq!(state[1..8], [0; 7], "{event:?}");
        assert_eq!(state[8..13], tasks, "{event:?}");
        let places = places.map(|place| [place, 0]).concat();
        assert_eq!(state[13..23], places, "{event:?}");
        assert_eq!(state[23..], [9; 2], "{event:?}");
        assert_eq!(make(&Call::Status, &b, &mut state), status, "{event:?}");
    }
}

#[test]
fn listing_of_b() {
    let text = "CLEAR 17\nRADI 12\nSATL 12\nCAST 0\n";
    let b = sample("b");
    assert_eq!(listed(&b), text);
    assert_eq!(printed(&b), text);
    let mut out = [7; 2048];
    let len = text.len();
    assert_eq!(make(&Call::Listing, &b, &mut out), 256 + len as u32);
    assert_eq!(out[..len], *text.as_bytes());
    assert!(out[len..].iter().all(|&byte| byte == 7));
}

#[test]
fn printed_refusals() {
    for (name, want) in [
        ("fifteen-bytes", "REFUSED 1\n"),
        ("nodes-129", "REFUSED 2\n"),
        ("one-byte-more", "REFUSED 3\n"),
        ("minutes-10081", "REFUSED 6\n"),
        ("one-task", "CLEAR 0\nTASK 0\n"),
    ] {
        assert_eq!(printed(&sample(name)), want, "{name}");
    }
}

/// Entries are flag 0 clear, flag 0 set, and so on.
#[test]
fn summaries() {
    let unordered = sample("preconditions-unordered");
    assert_eq!(
        entries(&unordered, 0),
        [[1, 1, 0, 0, 0, 0, 1, 0], [0, 0, 1, 1, 0, 0, 0, 0]]
    );
    let ordered = sample("preconditions-ordered");
    assert_eq!(
        entries(&ordered, 0),
        [[1, 1, 0, 0, 0, 0, 1, 1], [0, 0, 1, 1, 0, 0, 0, 0]]
    );
    let by_choice = sample("restored-by-choice");
    assert_eq!(
        entries(&by_choice, 2),
        [[0, 0, 1, 0, 0, 0, 0, 0], [0, 0, 0, 0, 0, 0, 0, 0]]
    );
    assert_eq!(
        entries(&by_choice, 0),
        [[0, 0, 1, 0, 0, 0, 1, 0], [0, 0, 1, 0, 0, 0, 0, 0]]
    );
    let b = sample("b");
    assert_eq!(
        entries(&b, 2),
        [
            [1, 0, 0, 0, 0, 0, 0, 0],
            [0, 0, 0, 0, 0, 0, 0, 0],
            [0, 0, 1, 1, 0, 0, 0, 0],
            [0, 0, 0, 0, 1, 1, 0, 0],
        ]
    );
    assert_eq!(
        entries(&b, 0),
        [
            [1, 1, 1, 1, 0, 0, 0, 0],
            [0, 0, 0, 0, 1, 1, 0, 0],
            [0, 0, 1, 1, 0, 0, 0, 0],
            [0, 0, 0, 0, 1, 1, 0, 0],
        ]
    );
}
