//! What a finish-together call returns and writes.

use reference::model::calls::Call;

use super::{check, start, together};
use crate::{fields, listed, make, plan, returns, sample, state, verdict, CLEAR};

/// The rows of `samples/README.md`: a tank that is filled and vented.
#[test]
fn tank() {
    let tank = sample("finish-together");
    let both = state(0, [0, 1, 1], [0, 1, 2]);
    check(&tank, &both, &[(&[1, 2], 26), (&[1], 0), (&[2], 0)]);
    let not_rising: [&[usize]; 4] = [&[], &[2, 1], &[1, 1], &[9, 9]];
    check(&tank, &both, &not_rising.map(|tasks| (tasks, 25)));
    check(&tank, &both, &[(&[0, 1], 17), (&[1, 3], 17)]);
    assert_eq!(returns(&tank, &[start(1), together(&[1, 2])]), [0, 18]);
    assert_eq!(listed(&tank), "OPEN 10\nFILL 0\nVENT 0\n");
    let in_order = fields(&tank).order(1, 2);
    assert_eq!(verdict(&in_order.bytes()), CLEAR);
}

/// A plan of tasks and one group of each kind.
const KINDS: &str = "flags 2\n0 ROOT all-of\n1 A--- task 0 under 0 leaves 0-set\n\
    2 B--- task 0 under 0 leaves 0-clear\n3 H--- task 0 under 0 holds 0-set leaves 0-set\n\
    4 PICK any-of under 0\n5 C--- task 0 under 4 leaves 1-set\n6 DROP optional under 0\n\
    7 D--- task 0 under 6\n";

/// All tasks run.
const RUNNING: [u8; 8] = [0, 1, 1, 1, 0, 1, 0, 1];
const PLACES: [u8; 8] = [0, 1, 2, 3, 0, 4, 0, 5];

#[test]
fn lists_that_do_not_rise() {
    let running = state(0, RUNNING, PLACES);
    let rows: [&[usize]; 16] = [
        &[],
        &[2, 2],
        &[2, 1],
        &[1, 1, 2],
        &[1, 2, 2],
        &[1, 3, 2],
        &[1, 2, 3, 5, 7, 7],
        // Also where a number is no task.
        &[9, 9],
        &[0, 0],
        &[4, 4],
        &[9, 1],
        &[1, 9, 5],
        &[usize::MAX, usize::MAX],
        &[usize::MAX, 1],
        &[1, usize::MAX, 5],
        &[1, 257, 5],
    ];
    check(&plan(KINDS), &running, &rows.map(|tasks| (tasks, 25)));
    // Or the tasks do not run.
    let fresh = state(0, [0; 8], [0; 8]);
    check(&plan(KINDS), &fresh, &rows.map(|tasks| (tasks, 25)));
}

#[test]
fn numbers_of_no_task() {
    let rows: [&[usize]; 17] = [
        &[0],
        &[4],
        &[6],
        &[8],
        &[0, 1],
        &[1, 4],
        &[5, 6],
        &[1, 2, 3, 4, 5],
        &[1, 8],
        &[1, 9],
        &[3, 127],
        &[3, 128],
        &[1, usize::MAX],
        &[1, 1 + (1 << 16)],
        &[1 + (1 << 8)],
        &[1 + (1 << 32)],
        &[1, 3 + (1 << 32)],
    ];
    let rows = rows.map(|tasks| (tasks, 17));
    check(&plan(KINDS), &state(0, RUNNING, PLACES), &rows);
    check(&plan(KINDS), &state(0, [0; 8], [0; 8]), &rows);
    // DROP skipped is no task either.
    let skipped = state(0, [0, 1, 1, 1, 0, 0, 2, 0], [0, 1, 2, 3, 0, 0, 0, 0]);
    check(&plan(KINDS), &skipped, &[(&[6], 17), (&[1, 6], 17)]);
}

/// Every check is made over the whole list before the next: with several causes the first counts.
#[test]
fn causes_taken_away_one_by_one() {
    let plan = plan(KINDS);
    let short = &state(255, RUNNING, PLACES)[..31];
    check(&plan, short, &[(&[], 15), (&[2, 1], 15), (&[1, 9], 15)]);
    let malformed = state(4, RUNNING, PLACES);
    check(&plan, &malformed, &[(&[], 16), (&[2, 1], 16), (&[9], 16)]);
    // A waits, B runs, D is done.
    let mixed = state(0, [0, 0, 1, 1, 0, 1, 0, 2], [0, 0, 1, 2, 0, 3, 0, 4]);
    check(
        &plan,
        &mixed,
        &[
            (&[2, 1, 9], 25),
            (&[1, 2, 9], 17),
            (&[1, 2], 18),
            (&[1], 18),
            (&[2, 7], 18),
            (&[7], 18),
            (&[2], 22),
            (&[2, 5], 22),
            (&[2, 3], 26),
            (&[3, 5], 0),
            (&[5], 0),
        ],
    );
}

/// A and B leave flag 0 opposite ways, and B's clear breaks what H holds: 26 before 22.
#[test]
fn opposed_and_broken() {
    let running = state(0, RUNNING, PLACES);
    check(
        &plan(KINDS),
        &running,
        &[
            (&[1, 2], 26),
            (&[1, 2, 5], 26),
            (&[1, 2, 3], 26),
            (&[2, 3], 26),
            (&[2], 22),
            (&[2, 5, 7], 22),
            (&[1, 3], 0),
            (&[1, 3, 5, 7], 0),
        ],
    );
}

/// The bytes of the tasks and their flags, nothing else: places, groups, other tasks and later
/// bytes stay.
#[test]
fn written_bytes() {
    let plan = plan(KINDS);
    let later = |state: Vec<u8>| [&state[..], &[7, 1, 0]].concat();
    for flags in [0, 1, 2, 3] {
        let before = later(state(flags, RUNNING, PLACES));
        for (tasks, set, statuses) in [
            (&[1][..], 1, [0, 2, 1, 1, 0, 1, 0, 1]),
            (&[1, 3], 1, [0, 2, 1, 2, 0, 1, 0, 1]),
            (&[1, 5], 3, [0, 2, 1, 1, 0, 2, 0, 1]),
            (&[5, 7], 2, [0, 1, 1, 1, 0, 2, 0, 2]),
            (&[7], 0, [0, 1, 1, 1, 0, 1, 0, 2]),
            (&[1, 3, 5, 7], 3, [0, 2, 1, 2, 0, 2, 0, 2]),
        ] {
            let mut lent = before.clone();
            assert_eq!(make(&together(tasks), &plan, &mut lent), 0, "{tasks:?}");
            assert_eq!(lent, later(state(flags | set, statuses, PLACES)));
        }
    }
    // With A and H done, B clears flag 0, and flag 1 stays.
    let done = [0, 2, 1, 2, 0, 1, 0, 1];
    let mut lent = later(state(3, done, PLACES));
    assert_eq!(make(&together(&[2, 7]), &plan, &mut lent), 0);
    let done = [0, 2, 2, 2, 0, 1, 0, 2];
    assert_eq!(lent, later(state(2, done, PLACES)));
}

/// All tasks of the largest plan end at once; a longer list has numbers that are no task.
#[test]
fn longest_lists() {
    let plan = sample("nodes-128");
    let mut lent = vec![7; 392 + 2];
    assert_eq!(make(&Call::Fresh, &plan, &mut lent), 0);
    for task in 1..128 {
        assert_eq!(make(&start(task), &plan, &mut lent), 0);
    }
    let rising = |from: usize, to: usize| (from..to).collect::<Vec<_>>();
    let (all, every) = (rising(1, 128), rising(0, 128));
    let (past, many) = (rising(1, 129), rising(1, 100_000));
    let falling: Vec<usize> = (1..100_000).rev().collect();
    let repeated = [rising(1, 100_000), vec![99_999]].concat();
    let rows = [&every, &past, &many].map(|tasks| (&tasks[..], 17));
    check(&plan, &lent, &rows);
    check(&plan, &lent, &[(&falling, 25), (&repeated, 25), (&all, 0)]);
    assert_eq!(make(&together(&all), &plan, &mut lent), 0);
    assert_eq!(lent[8..136], [&[0][..], &[2; 127]].concat());
    assert_eq!(lent[392..], [7; 2]);
    assert_eq!(make(&Call::Status, &plan, &mut lent), 128);
    check(&plan, &lent, &[(&all, 18), (&[127], 18)]);
}
