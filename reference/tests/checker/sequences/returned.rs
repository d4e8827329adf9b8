//! Refusals and their order, and wrong returns, which the comparison finds.

use reference::model::format::{Plan, ANY_OF, OPTIONAL};
use reference::model::sequence::word;
use reference::tools::archive;
use reference::tools::scenario::sequence::compared;

use super::{admitted, returned};
use crate::{fields, plan, sample};

/// 23: the root is a task, an any-of or an optional group, or has more than seven children.
#[test]
fn other_roots() {
    for text in [
        "0 ROOT task 0\n",
        "0 ROOT any-of\n1 TASK task 0 under 0\n",
        "0 ROOT optional\n1 TASK task 0 under 0\n",
        "0 ROOT any-of\n1 GRP- all-of under 0\n2 TASK task 0 under 1\n",
    ] {
        assert_eq!(returned(&plan(&format!("flags 1\n{text}"))), 23, "{text}");
    }
    for nodes in 9..=128 {
        assert_eq!(returned(&Plan::flat(64, nodes).bytes()), 23, "{nodes}");
    }
}

/// 14 comes before 23, and 23 before 24.
#[test]
fn order_of_refusals() {
    // Eight children, of which one cannot start; a task or a choice that cannot.
    let unmet = Plan::flat(1, 9).pre(0, 1);
    assert_eq!(returned(&unmet.bytes()), 23);
    assert_eq!(returned(&Plan::one_task(1).pre(0, 1).bytes()), 23);
    for kind in [ANY_OF, OPTIONAL] {
        let mut choice = Plan::flat(1, 3).pre(0, 1);
        choice.nodes[0].kind = kind;
        assert_eq!(returned(&choice.bytes()), 23);
    }
    assert_eq!(returned(&Plan::flat(1, 8).pre(0, 1).bytes()), 24);
    let twice = unmet.order(1, 2).order(1, 2);
    assert_eq!(returned(&twice.bytes()), 14);
    let inside = "flags 1\n0 ROOT any-of\n1 GRP- all-of under 0\n2 A--- task 0 under 1\n\
        3 B--- task 0 under 1\norder 2 3\n";
    let twice = fields(&plan(inside)).order(2, 3);
    assert_eq!(returned(&twice.bytes()), 14);
}

/// Refused plans of the samples, and B cut off anywhere.
#[test]
fn refused_bytes() {
    for (name, want) in [
        ("fifteen-bytes", 1),
        ("nodes-0", 2),
        ("nodes-129", 2),
        ("one-byte-more", 3),
        ("minutes-10081", 6),
    ] {
        assert_eq!(returned(&sample(name)), want, "{name}");
    }
    let b = sample("b");
    for len in 0..b.len() {
        let want = if len < 16 { 1 } else { 3 };
        assert_eq!(returned(&b[..len]), want);
    }
}

/// A, C and Z, of which Z has to come before A: 2, 3, 1; 3, 1, 2; 3, 2, 1.
const PLAN: &str = "flags 1\n0 ROOT all-of\n1 A--- task 0 under 0 leaves 0-set\n\
    2 C--- task 0 under 0\n3 Z--- task 0 under 0 needs 0-clear\n";

/// The archive returns this word, and no call that returns one of the others is right.
#[track_caller]
fn only(plan: &[u8], right: u64, wrong: &[u64]) {
    assert_eq!(returned(plan), right);
    for &wrong in wrong {
        let differs = compared(plan, |_| wrong);
        assert!(differs.is_err(), "{wrong:#x}");
    }
}

/// Words that are not to be returned, by what is wrong with them.
#[test]
fn wrong_words() {
    let free = plan(PLAN);
    let right = word(&[2, 3, 1]);
    let lists: [&[usize]; 13] = [
        // Admitted, but not the first.
        &[3, 1, 2],
        &[3, 2, 1],
        // OPEN, or DOOMED, under it.
        &[1, 2, 3],
        &[1, 3, 2],
        &[2, 1, 3],
        // A child forgotten, twice, or another node.
        &[2, 3],
        &[2],
        &[],
        &[2, 3, 1, 1],
        &[2, 2, 1],
        &[2, 3, 0],
        &[4, 2, 3, 1],
        &[2, 3, 129],
    ];
    only(&free, right, &lists.map(word));
    let others = [
        0,
        14,
        23,
        24,
        right + (4 << 24),
        right + (128 << 48),
        right + (1 << 56),
        right - (1 << 56),
        right - (3 << 56),
        0x0301_0302_0000_0000,
        0x0302_0301_0000_0000,
        u64::MAX,
    ];
    only(&free, right, &others);
    // The first one breaks an order, so that the next is the first.
    let ordered = plan(&format!("{PLAN}order 1 2\n"));
    only(&ordered, word(&[3, 1, 2]), &[right, word(&[3, 2, 1]), 24]);
    let none = plan(&format!("{PLAN}order 1 3\n"));
    only(&none, 24, &[23, right, word(&[1, 2, 3]), word(&[1, 3, 2])]);
    // Of a refused plan its refusal alone, of an any-of root 23.
    let b = sample("b");
    only(&b[..20], 3, &[0, 1, 23, 24, word(&[1, 2])]);
    let choice = plan(&PLAN.replace("all-of", "any-of"));
    only(&choice, 23, &[24, right]);
}

/// Every other admitted sequence is wrong: the second, and so on to the last, which may be the
/// first one reversed.
#[test]
fn all_but_the_first() {
    for (bytes, count) in [
        (plan(PLAN), 3),
        (sample("b-without-order"), 2),
        (sample("restored-unordered"), 2),
        (sample("sequence-found"), 2),
        (sample("branch-blocked"), 6),
        (Plan::flat(1, 6).bytes(), 120),
    ] {
        let words: Vec<u64> = admitted(&bytes).iter().map(|list| word(list)).collect();
        assert_eq!(words.len(), count);
        only(&bytes, words[0], &words[1..]);
    }
}

#[test]
fn a_byte_of_the_plan_written() {
    let b = sample("b");
    assert_eq!(compared(&b, archive::sequence), Ok(word(&[1, 2])));
    let written = compared(&b, |plan| {
        plan[16] = b'N';
        word(&[1, 2])
    });
    assert!(written.is_err_and(|message| message.contains("leaves the plan as 82 bytes")));
    let other = compared(&b, |_| 24);
    let message = "returns 0x18, not 0x200000000000201";
    assert!(other.is_err_and(|told| told.contains(message)));
}
