//! Plans made by hand that tell the first sequence from others.

use reference::model::format::{Plan, CLEAR, NO_PARENT, SET};
use reference::model::sequence::read;

use super::{check, returned};
use super::{ANY_OF_THREE, BARE, NEEDS, SETS};
use crate::below;

/// The lowest child may come first, but then another can come no more: the search has to go back.
#[test]
fn dead_ends() {
    // To the second place, and from the last place to the first.
    check(
        &below(&format!("1 {BARE}; 2 {SETS}; 3 {NEEDS}")),
        &[[1, 3, 2], [3, 1, 2], [3, 2, 1]],
    );
    check(
        &below(&format!("1 {SETS}; 2 {BARE}; 3 {BARE}; 4 {NEEDS}")),
        &[
            [2, 3, 4, 1],
            [2, 4, 1, 3],
            [2, 4, 3, 1],
            [3, 2, 4, 1],
            [3, 4, 1, 2],
            [3, 4, 2, 1],
            [4, 1, 2, 3],
            [4, 1, 3, 2],
            [4, 2, 1, 3],
            [4, 2, 3, 1],
            [4, 3, 1, 2],
            [4, 3, 2, 1],
        ],
    );
    // To the first place twice: neither 1 nor 2 can be the first.
    let two_flags = format!(
        "1 {SETS}; 2 {}; 3 {}; 4 {NEEDS}",
        SETS.replace("0-", "1-"),
        NEEDS.replace("0-", "1-")
    );
    let want = [
        [3, 2, 4, 1],
        [3, 4, 1, 2],
        [3, 4, 2, 1],
        [4, 1, 3, 2],
        [4, 3, 1, 2],
        [4, 3, 2, 1],
    ];
    check(&below(&two_flags), &want);
}

/// What was left on the way into a dead end is forgotten: 1, 2 leaves flag 1 set, which 4 needs
/// clear.
#[test]
fn flags_of_a_dead_end() {
    let lines = format!(
        "1 {SETS}; 2 BOTH task 0 under 0 needs 0-set leaves 1-set; 3 {NEEDS}; \
        4 LAST task 0 under 0 needs 1-clear"
    );
    let want = [[3, 1, 4, 2], [3, 4, 1, 2], [4, 3, 1, 2]];
    check(&below(&lines), &want);
}

/// Of seven children the last has to come before one: that one comes after it, and the others stay
/// in rising order.
#[test]
fn back_to_each_place() {
    for late in 1..=6 {
        let root = Plan::new(1).all_of(b"ROOT", NO_PARENT);
        let tasks = (1..=6).fold(root, |plan, child| {
            let task = plan.task(b"TASK", 0, 0);
            if child == late {
                task.post(0, SET)
            } else {
                task
            }
        });
        let plan = tasks.task(b"NEED", 0, 0).pre(0, CLEAR);
        let mut want: Vec<usize> = (1..=7).filter(|&child| child != late).collect();
        want.push(late);
        assert_eq!(read(returned(&plan.bytes())), Some(want));
    }
}

/// 3, 4, 1, 2 has four pairs that fall, 4, 1, 2, 3 only three: nearest to the rising one is not the
/// first.
#[test]
fn not_the_nearest() {
    check(
        &below(&format!("1 {SETS}; 2 {SETS}; 3 {BARE}; 4 {NEEDS}")),
        &[
            [3, 4, 1, 2],
            [3, 4, 2, 1],
            [4, 1, 2, 3],
            [4, 1, 3, 2],
            [4, 2, 1, 3],
            [4, 2, 3, 1],
            [4, 3, 1, 2],
            [4, 3, 2, 1],
        ],
    );
}

/// Sequences that begin alike differ in the last places.
#[test]
fn the_last_places() {
    let begin = format!("1 {BARE}; 2 {BARE}");
    let orders = "order 1 2; order 2 3; order 2 4";
    check(
        &below(&format!("{begin}; 3 {BARE}; 4 {BARE}; {orders}")),
        &[[1, 2, 3, 4], [1, 2, 4, 3]],
    );
    check(
        &below(&format!("{begin}; 3 {SETS}; 4 {NEEDS}; {orders}")),
        &[[1, 2, 4, 3]],
    );
}

/// What an order puts before Z comes before A too, though its number is higher.
#[test]
fn orders_of_others() {
    let lines = format!("1 {SETS}; 2 {BARE}; 3 {NEEDS}");
    check(&below(&format!("{lines}; order 2 3")), &[[2, 3, 1]]);
    check(
        &below(&format!("{lines}; 4 {BARE}; order 2 3")),
        &[[2, 3, 1, 4], [2, 3, 4, 1], [2, 4, 3, 1], [4, 2, 3, 1]],
    );
}

/// Names and minutes, kinds, and the numbers of the nodes below decide nothing.
#[test]
fn only_numbers_of_children() {
    let names = "1 ZULU task 1 under 0; 2 MIKE task 90 under 0; 3 ALFA task 10 under 0";
    check(&below(names), &ANY_OF_THREE);
    let two_first = [[2, 1, 3], [2, 3, 1], [3, 2, 1]];
    let named = "1 ZULU task 1 under 0 leaves 0-set; 2 MIKE task 90 under 0 needs 0-clear; \
        3 ALFA task 10 under 0";
    check(&below(named), &two_first);
    let falling = "1 C--- all-of under 0; 2 B--- optional under 0; 3 A--- any-of under 0; \
        4 TASK task 0 under 3; 5 TASK task 0 under 2; 6 TASK task 0 under 1";
    check(&below(falling), &ANY_OF_THREE);
    let falling = falling.replace("under 1", "under 1 leaves 0-set");
    let falling = falling.replace("under 2", "under 2 needs 0-clear");
    check(&below(&falling), &two_first);
}

/// Numbers of one, two and three digits, with 64 between two of them.
#[test]
fn numbers_not_digits() {
    let mut plan = Plan::new(1).all_of(b"ROOT", NO_PARENT).all_of(b"GRP-", 0);
    for node in 2..=127 {
        plan = match node {
            9 | 70 | 127 => plan.task(b"NEED", 0, 0).pre(0, CLEAR),
            _ => plan.task(b"TASK", 1, 0).post(0, SET),
        };
    }
    let want = [
        [9, 70, 127, 1],
        [9, 127, 70, 1],
        [70, 9, 127, 1],
        [70, 127, 9, 1],
        [127, 9, 70, 1],
        [127, 70, 9, 1],
    ];
    check(&plan.bytes(), &want);
    plan.conditions.clear();
    assert_eq!(read(returned(&plan.bytes())), Some(vec![1, 9, 70, 127]));
}
