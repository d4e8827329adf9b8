//! Refusals 28 and 29, and the order 14, 28, 29, 15, 16.

use reference::model::calls::Call;

use super::{check, finish, skip, start, together, NESTED};
use crate::{fields, make_blocking, plan, verdict_blocking, CLEAR};

/// The calls that take a list of blocked nodes, with a number that is none.
fn with_list() -> [Call; 9] {
    [
        Call::Verdict,
        Call::Summary(99),
        Call::Fresh,
        start(99),
        finish(99),
        skip(99),
        together(&[99]),
        together(&[]),
        Call::Status,
    ]
}

#[test]
fn lists_that_are_refused() {
    let plan = plan(NESTED);
    let rows: [(&[usize], u32); 29] = [
        (&[], CLEAR),
        (&[3], CLEAR),
        (&[10], CLEAR),
        (&[6], CLEAR),
        (&[8], CLEAR),
        (&[12], CLEAR),
        (&[12, 13], CLEAR),
        (&[6, 8, 10, 12, 13], CLEAR),
        (&[3, 6, 8, 9, 12, 13], CLEAR),
        // The root; a child of an all-of group; no node.
        (&[0], 28),
        (&[1], 28),
        (&[2], 28),
        (&[4], 28),
        (&[5], 28),
        (&[7], 28),
        (&[11], 28),
        (&[14], 28),
        (&[255], 28),
        (&[3 + (1 << 8)], 28),
        (&[3 + (1 << 16)], 28),
        (&[3, 12, 13, 14], 28),
        (&[3, 4], 28),
        // Not rising.
        (&[3, 3], 28),
        (&[12, 3], 28),
        (&[6, 8, 12, 12], 28),
        (&[8, 6, 12, 13], 28),
        // No branch left, and not rising or no branch besides.
        (&[3, 10], 29),
        (&[8, 9], 29),
        (&[3, 10, 14], 28),
    ];
    for (blocked, want) in rows {
        assert_eq!(verdict_blocking(&plan, blocked), want, "{blocked:?}");
    }
}

/// 29 asks any-of groups that are there, at any depth, and never an optional one.
#[test]
fn groups_that_are_asked() {
    let of_kind = |kind: &str| {
        plan(&format!(
            "flags 1\n0 ROOT {kind}\n1 GRP- all-of under 0\n2 SUB- {kind} under 1\n\
             3 A--- task 0 under 2\n4 DEEP {kind} under 2\n5 B--- task 0 under 4\n\
             6 T--- task 0 under 0\n"
        ))
    };
    let rows: [(&[usize], u32); 9] = [
        (&[1], CLEAR),
        (&[1, 6], 29),
        (&[3], CLEAR),
        (&[5], 29),
        (&[4], CLEAR),
        (&[4, 5], CLEAR),
        (&[3, 5], 29),
        (&[3, 4], 29),
        (&[1, 3, 4, 5], CLEAR),
    ];
    for (blocked, want) in rows {
        let (any_of, optional) = (of_kind("any-of"), of_kind("optional"));
        assert_eq!(verdict_blocking(&any_of, blocked), want, "{blocked:?}");
        assert_eq!(verdict_blocking(&optional, blocked), CLEAR, "{blocked:?}");
    }
}

/// A refused plan comes first, then the list, then what is lent.
#[test]
fn order_of_checks() {
    let good = plan(NESTED);
    let repeated = fields(&good).order(1, 2).bytes();
    let short = vec![255; 1];
    let malformed = vec![255; 8 + 3 * 14];
    let fresh = vec![0; 8 + 3 * 14];
    for lent in [&short, &malformed, &fresh] {
        for call in with_list() {
            for blocked in [&[0][..], &[3, 10], &[99], &[5, 4]] {
                check(&repeated, blocked, lent, &[(call.clone(), 14)]);
            }
            for blocked in [&[0][..], &[99], &[10, 3], &[0, 3, 10], &[3, 10, 14]] {
                check(&good, blocked, lent, &[(call.clone(), 28)]);
            }
            check(&good, &[3, 10], lent, &[(call.clone(), 29)]);
        }
    }
    for blocked in [&[][..], &[3], &[6, 12, 13]] {
        for call in &with_list()[1..] {
            check(&good, blocked, &short, &[(call.clone(), 15)]);
        }
        for call in &with_list()[3..] {
            check(&good, blocked, &malformed, &[(call.clone(), 16)]);
        }
        let after = [
            (start(99), 17),
            (finish(99), 17),
            (skip(99), 27),
            (together(&[99]), 17),
            (together(&[]), 25),
        ];
        check(&good, blocked, &fresh, &after);
        let mut out = [7; 40];
        let summary = make_blocking(&Call::Summary(99), &good, blocked, &mut out);
        assert_eq!((summary, out), (17, [7; 40]));
    }
}

/// Refusal and listing take no list: they are about the whole plan.
#[test]
fn calls_without_list() {
    let plan = plan(NESTED);
    for blocked in [&[][..], &[3], &[3, 10], &[0]] {
        assert_eq!(make_blocking(&Call::Refusal, &plan, blocked, &mut []), 0);
        let mut out = vec![7; 2048];
        let listed = make_blocking(&Call::Listing, &plan, blocked, &mut out);
        assert!(listed > 256);
        assert!(out.starts_with(b"CLEAR 0\nA--- 0\nB--- 0\n"));
    }
}
