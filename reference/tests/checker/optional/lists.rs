//! Lists of calls with skips: what each returns, and the status after them.

use reference::model::calls::Call;
use reference::model::events::Event::{self, Finish, Skip, Start};
use reference::model::monitor::state_len;
use reference::tools::text;

use super::{BEFORE, COMPLETE, IN_BRANCH, UNFINISHED};
use crate::{fields, listed, make, plan, sample, verdict, OPEN};

/// DROP, in a group, comes after T.
const AFTER: &str = "flags 1\n0 ROOT all-of\n1 T--- task 0 under 0\n2 GRP- all-of under 0\n\
    3 DROP optional under 2\n4 A--- task 0 under 3\norder 1 2\n";

/// OUTR is INNR, which is A or nothing, or B, or nothing, and comes before T.
const NESTED: &str = "flags 1\n0 ROOT all-of\n1 OUTR optional under 0\n2 INNR optional under 1\n\
    3 A--- task 0 under 2\n4 B--- task 0 under 1\n5 T--- task 0 under 0\norder 1 5\n";

/// Each call of the list, from the fresh state, returns what stands beside it; then the status is
/// this.
#[track_caller]
fn check(text: &str, list: &[(Event, u32)], status: u32) {
    let plan = plan(text);
    let mut state = vec![7; state_len(&fields(&plan))];
    assert_eq!(make(&Call::Fresh, &plan, &mut state), 0);
    for &(event, want) in list {
        let returned = make(&Call::Event(event), &plan, &mut state);
        assert_eq!(returned, want, "{event:?} of {list:?}");
    }
    assert_eq!(make(&Call::Status, &plan, &mut state), status, "{list:?}");
}

/// The rows of `samples/README.md`: a calibration that a busy day drops.
#[test]
fn calibration() {
    let text = text::show(&sample("calibration-optional")).unwrap();
    let check = |list: &[(Event, u32)]| check(&text, list, UNFINISHED);
    let dropped = [(Start(1), 0), (Finish(1), 0), (Skip(2), 0), (Start(5), 0)];
    for refused in [(Start(3), 19), (Start(4), 19), (Skip(2), 18)] {
        check(&[&dropped[..], &[refused]].concat());
    }
    check(&[(Skip(2), 20), (Start(1), 0), (Skip(2), 20)]);
    check(&[(Start(1), 0), (Finish(1), 0), (Start(5), 20)]);
    check(&[(Start(1), 0), (Finish(1), 0), (Start(4), 0), (Skip(2), 18)]);
    check(&[(Skip(1), 27), (Skip(0), 27), (Skip(6), 27)]);
    let lines = "CLEAR 63\nPING 23\nQUIK 8\nTONE 8\nLOWR 0\n";
    assert_eq!(listed(&plan(&text)), lines);
}

#[test]
fn skip_then_start() {
    let list = [(Skip(1), 0), (Start(2), 19), (Start(3), 19)];
    check(BEFORE, &list, UNFINISHED);
}

#[test]
fn start_then_skip() {
    check(BEFORE, &[(Start(2), 0), (Skip(1), 18)], UNFINISHED);
    let list = [(Start(3), 0), (Finish(3), 0), (Skip(1), 18), (Start(2), 19)];
    check(BEFORE, &list, UNFINISHED);
}

#[test]
fn skip_twice() {
    check(BEFORE, &[(Skip(1), 0), (Skip(1), 18)], UNFINISHED);
}

/// The branch without tasks is not complete by itself.
#[test]
fn before_a_task() {
    let list = [(Start(4), 20), (Skip(1), 0), (Start(4), 0), (Finish(4), 0)];
    check(BEFORE, &list, COMPLETE);
    let list = [(Start(2), 0), (Start(4), 20), (Finish(2), 0), (Start(4), 0)];
    check(BEFORE, &list, UNFINISHED);
}

/// An order into a group that it stands in applies to it.
#[test]
fn after_a_task() {
    let (skip, start) = (Skip(3), Start(1));
    let list = [
        (skip, 20),
        (start, 0),
        (skip, 20),
        (Finish(1), 0),
        (skip, 0),
    ];
    check(AFTER, &list, COMPLETE);
}

#[test]
fn choice_of_an_optional_group_and_a_task() {
    let text = "flags 1\n0 PICK any-of\n1 DROP optional under 0\n2 A--- task 0 under 1\n\
        3 T--- task 0 under 0\n";
    check(text, &[(Skip(1), 0), (Start(3), 19)], COMPLETE);
    check(text, &[(Start(3), 0), (Skip(1), 19)], UNFINISHED);
}

/// A skip in a branch takes the branch.
#[test]
fn skip_in_a_branch() {
    let list = [(Skip(2), 0), (Start(5), 19), (Start(4), 0), (Finish(4), 0)];
    check(IN_BRANCH, &list, COMPLETE);
    check(IN_BRANCH, &[(Start(4), 0), (Skip(2), 0)], UNFINISHED);
    let list = [(Start(5), 0), (Skip(2), 19), (Finish(5), 0), (Skip(2), 19)];
    check(IN_BRANCH, &list, COMPLETE);
}

/// 27, for a task, an all-of and an any-of group, the numbers past the nodes and those that are a
/// group's again when they are cut.
#[test]
fn skip_of_no_optional_group() {
    let past = [6, 7, 127, 128, 255, usize::MAX];
    let cut = [8, 16, 32].map(|bits| (1 << bits) + 2);
    for number in [0, 1, 3, 4, 5].into_iter().chain(past).chain(cut) {
        check(IN_BRANCH, &[(Skip(number), 27), (Skip(2), 0)], UNFINISHED);
    }
    // Whatever its status.
    let list = [(Start(4), 0), (Skip(4), 27), (Finish(4), 0), (Skip(4), 27)];
    check(IN_BRANCH, &list, UNFINISHED);
}

#[test]
fn start_and_finish_of_an_optional_group() {
    let list = [
        (Start(1), 17),
        (Finish(1), 17),
        (Skip(1), 0),
        (Start(1), 17),
    ];
    check(BEFORE, &list, UNFINISHED);
}

#[test]
fn root() {
    let text = "flags 1\n0 ROOT optional\n1 A--- task 0 under 0\n2 B--- task 0 under 0\n";
    check(text, &[], UNFINISHED);
    check(text, &[(Skip(0), 0), (Start(1), 19)], COMPLETE);
    check(text, &[(Start(1), 0), (Skip(0), 18)], UNFINISHED);
    check(text, &[(Start(2), 0), (Finish(2), 0)], COMPLETE);
}

#[test]
fn nested() {
    // The inner group skipped: it is the branch of the outer one that is taken, and completes it.
    let inner = (Skip(2), 0);
    check(NESTED, &[inner, (Skip(1), 18), (Skip(2), 18)], UNFINISHED);
    check(NESTED, &[inner, (Start(4), 19), (Start(3), 19)], UNFINISHED);
    let list = [(Start(5), 20), inner, (Start(5), 0), (Finish(5), 0)];
    check(NESTED, &list, COMPLETE);
    // The outer group skipped.
    let outer = (Skip(1), 0);
    check(NESTED, &[outer, (Skip(2), 19), (Skip(1), 18)], UNFINISHED);
    check(NESTED, &[outer, (Start(3), 19), (Start(4), 19)], UNFINISHED);
    // Neither, with a branch of each taken.
    let list = [(Start(3), 0), (Skip(2), 18), (Skip(1), 18)];
    check(NESTED, &list, UNFINISHED);
    let list = [(Start(4), 0), (Skip(2), 19), (Skip(1), 18)];
    check(NESTED, &list, UNFINISHED);
}

/// A skip has no need and writes no flag.
#[test]
fn beside_conditions() {
    let text = "flags 1\n0 ROOT all-of\n1 A--- task 0 under 0 holds 0-set leaves 0-set\n\
        2 DROP optional under 0\n\
        3 B--- task 0 under 2 needs 0-clear holds 0-clear leaves 0-clear\n";
    assert_eq!(verdict(&plan(text)), OPEN);
    let list = [(Start(1), 0), (Start(3), 21), (Skip(2), 0), (Finish(1), 0)];
    check(text, &list, COMPLETE);
    let text = "flags 1\n0 DROP optional\n1 A--- task 0 under 0 needs 0-set\n";
    check(text, &[(Start(1), 21), (Skip(0), 0)], COMPLETE);
}
