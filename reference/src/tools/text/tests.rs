use super::*;
use crate::model::format::{Sizes, CLEAR, NO_PARENT, SET};
use crate::tools::generate::any_plan;
use crate::tools::random::Random;

const TEXT: &str = "\
flags 8
start 0 7
0 ROOT all-of
1 GRP- any-of under 0
2 A--1 task 12 under 1 needs 0-clear 3-set holds 1-set leaves 2-clear 1-set
3 B--2 task 0 under 1
4 C--3 task 10080 under 0 leaves 7-set
5 DROP optional under 0
6 D--4 task 5 under 5
order 1 4
order 4 5
";

#[test]
fn text_and_fields_agree() {
    let plan = Plan::new(8)
        .starting_with(0)
        .starting_with(7)
        .all_of(b"ROOT", NO_PARENT)
        .any_of(b"GRP-", 0)
        .task(b"A--1", 1, 12)
        .pre(0, CLEAR)
        .pre(3, SET)
        .inc(1, SET)
        .post(2, CLEAR)
        .post(1, SET)
        .task(b"B--2", 1, 0)
        .task(b"C--3", 0, 10_080)
        .post(7, SET)
        .optional(b"DROP", 0)
        .task(b"D--4", 5, 5)
        .order(1, 4)
        .order(4, 5);
    assert_eq!(make(TEXT), Ok(plan.bytes()));
    assert_eq!(show(&plan.bytes()), Ok(TEXT.to_string()));
}

#[test]
fn random_plans_come_back() {
    let mut random = Random::new(3);
    let most = Sizes {
        nodes: 40,
        conditions: 200,
        orders: 100,
        flags: 64,
    };
    for _ in 0..200 {
        let bytes = any_plan(&mut random, most).bytes();
        let text = show(&bytes).unwrap();
        assert_eq!(make(&text), Ok(bytes));
    }
}

#[test]
fn damaged_plans() {
    let task = "flags 1\n0 TASK task 0\n";
    for (lines, len, want) in [
        ("length 15", 15, 1),
        ("length 25", 25, 3),
        ("start 1", 24, 4),
    ] {
        let unsaid = format!("{task}{lines}\n");
        assert_eq!(make(&unsaid), Err(Error::Refused(want)));
        let said = format!("{unsaid}refused {want}\n");
        let bytes = make(&said).unwrap();
        assert_eq!(bytes.len(), len);
        assert_eq!(show(&bytes), Err(Error::Refused(want)));
    }
    assert_eq!(make(&format!("{task}refused 3\n")), Err(Error::Accepted));
}

#[test]
fn bad_lines() {
    let lines = [
        "",
        "flag 1",
        "flags",
        "flags 70000",
        "flags 1 2",
        "start 64",
        "order 1",
        "order 1 256",
        "0 ROOT all-of",
        "2 TASK task 1",
        "1 TASK task",
        "1 TASK group",
        "1 TASKS task 1",
        "1 TASK task 1 0-set",
        "1 TASK task 1 needs 0",
        "1 TASK task 1 needs 64-set",
        "1 TASK task 1 needs 0-open",
        "1 TASK task 1 under",
        "1 TASK task 1 under 256",
    ];
    for line in lines {
        let text = format!("flags 1\n0 TASK task 0\n{line}\n");
        let found = make(&text);
        assert!(matches!(found, Err(Error::Line(3, _))), "{line}: {found:?}");
    }
}

const B: &[u8] = include_bytes!("../../../../samples/b.plan");

/// B after start 1, finish 1, start 4.
const STATE: [u8; 23] = [
    2, 0, 0, 0, 0, 0, 0, 0, // flags
    0, 2, 0, 0, 1, // statuses
    0, 0, 1, 0, 0, 0, 0, 0, 2, 0, // places
];

#[test]
fn state_of_b() {
    let text = "\
set 1
0 MOOR unfinished
1 CAST done
2 COMS unfinished
3 RADI waiting
4 SATL running
place 1 task 1 CAST
place 2 task 4 SATL
";
    assert_eq!(show_state(B, &STATE), Ok(text.to_string()));
    // Later bytes are no part of the state.
    let longer = [&STATE[..], &[255; 9]].concat();
    assert_eq!(show_state(B, &longer), Ok(text.to_string()));
}

#[test]
fn states_at_first_and_at_last() {
    let first = "0 MOOR unfinished\n1 CAST waiting\n2 COMS unfinished\n3 RADI waiting\n\
         4 SATL waiting\n";
    assert_eq!(show_state(B, &[0; 23]), Ok(first.to_string()));
    // RADI began before CAST, which no run permits; the text goes by the places.
    let last = "set 0 1\n0 MOOR complete\n1 CAST done\n2 COMS complete\n3 RADI done\n\
         4 SATL waiting\nplace 1 task 3 RADI\nplace 2 task 1 CAST\n";
    let state = [
        3, 0, 0, 0, 0, 0, 0, 0, 0, 2, 0, 2, 0, 0, 0, 2, 0, 0, 0, 1, 0, 0, 0,
    ];
    assert_eq!(show_state(B, &state), Ok(last.to_string()));
}

/// Optional groups that are skipped, that are complete by a branch, and that are neither.
#[test]
fn skipped_groups() {
    let plan = make(
        "flags 1\n0 ROOT optional\n1 GRP- all-of under 0\n2 OUTR optional under 1\n\
         3 INNR optional under 2\n4 A--- task 0 under 3\n5 LAST optional under 1\n\
         6 B--- task 0 under 5\n",
    )
    .unwrap();
    let check = |statuses: [u8; 7], want: &str| {
        let state = [&[0; 8][..], &statuses, &[0; 14]].concat();
        let text = show_state(&plan, &state).unwrap();
        let words: Vec<&str> = text.lines().map(|line| &line[7..]).collect();
        assert_eq!(words.join(" "), want);
    };
    check(
        [0; 7],
        "unfinished unfinished unfinished unfinished waiting unfinished waiting",
    );
    check(
        [0, 0, 0, 2, 0, 0, 0],
        "unfinished unfinished complete skipped waiting unfinished waiting",
    );
    check(
        [0, 0, 0, 2, 0, 2, 0],
        "complete complete complete skipped waiting skipped waiting",
    );
    check(
        [2, 0, 0, 0, 0, 0, 0],
        "skipped unfinished unfinished unfinished waiting unfinished waiting",
    );
}

#[test]
fn refused_states() {
    let refused = |number| Err(Error::Refused(number));
    assert_eq!(show_state(&B[..81], &STATE), refused(3));
    assert_eq!(show_state(B, &STATE[..22]), refused(15));
    assert_eq!(show_state(B, &STATE[..13]), refused(15));
    let mut gap = STATE;
    gap[21] = 3;
    assert_eq!(show_state(B, &gap), refused(16));
}
