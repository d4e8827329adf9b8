//! Refusals of lists, numbers and roots, and their order.

use reference::model::format::Plan;
use reference::model::members::Change;
use reference::tools::generate::LIMITS;

use crate::{fields, plan, sample, CLEAR};

/// Both calls with this number meet this refusal on this list, and leave it.
#[track_caller]
fn refused(plan: &[u8], list: &[u8], number: usize, want: u32) {
    let [included, excluded] = returned(plan, list, number);
    assert_eq!([included, excluded], [want; 2], "{number} of {list:?}");
}

/// What include and exclude return, each on this list; refused, they leave it.
#[track_caller]
fn returned(plan: &[u8], list: &[u8], number: usize) -> [u32; 2] {
    Change::each(number).map(|change| {
        let mut lent = list.to_vec();
        let returned = super::change(plan, &mut lent, change);
        assert_eq!(lent == list, returned < CLEAR, "{change:?} of {list:?}");
        returned
    })
}

/// GRP has A and SUB, in which B is; then Z.
const NESTED: &str = "flags 1\n0 ROOT all-of\n1 GRP- all-of under 0\n2 A--- task 0 under 1\n\
    3 SUB- any-of under 1\n4 B--- task 0 under 3\n5 Z--- task 0 under 0\n";

/// The same with a root of another kind.
fn nested(kind: &str) -> Vec<u8> {
    plan(&NESTED.replace("ROOT all-of", &format!("ROOT {kind}")))
}

/// A list that is too short, of whatever bytes.
#[test]
fn short_lists() {
    for kind in ["all-of", "any-of", "optional"] {
        let plan = nested(kind);
        for len in 0..6 {
            for byte in [0, 1, 2, 255] {
                refused(&plan, &vec![byte; len], 1, 15);
            }
        }
    }
    let flat = Plan::flat(64, LIMITS.nodes).bytes();
    refused(&flat, &[0; 127], 1, 15);
    assert_eq!(returned(&flat, &[0; 128], 1), [CLEAR, 32]);
    refused(&sample("one-task"), &[], 0, 15);
}

/// A byte over 1 at any node, and a 1 at a node that is no child of the root.
#[test]
fn malformed_lists() {
    for kind in ["all-of", "any-of", "optional"] {
        let plan = nested(kind);
        for node in 0..6 {
            for byte in 2..=255 {
                let mut list = [0, 0, 0, 0, 0, 1];
                list[node] = byte;
                refused(&plan, &list, 1, 16);
            }
        }
        for node in [0, 2, 3, 4] {
            let mut list = [0, 1, 0, 0, 0, 0, 7];
            list[node] = 1;
            refused(&plan, &list, 5, 16);
        }
    }
    refused(&sample("one-task"), &[1], 0, 16);
    refused(&sample("one-task"), &[2], 1, 16);
}

/// Bytes after the first N decide nothing.
#[test]
fn later_bytes() {
    let plan = nested("all-of");
    for later in [0, 1, 2, 128, 255] {
        for count in [1, 2, 128, 250, 300] {
            let list = [&[0, 1, 0, 0, 0, 0][..], &vec![later; count]].concat();
            assert_eq!(returned(&plan, &list, 1), [32, CLEAR]);
            assert_eq!(returned(&plan, &list, 5), [CLEAR, 32]);
            refused(&plan, &list, 6, 17);
        }
    }
}

/// 17 means no node, and 31 that it is no child of an all-of root.
#[test]
fn numbers() {
    let plan = nested("all-of");
    let big = [1 << 8, 1 << 16, 1 << 32, 1 << 63].map(|beyond| beyond + 1_usize);
    for number in [6, 7, 127, 128, 255, usize::MAX].into_iter().chain(big) {
        refused(&plan, &[0; 7], number, 17);
        refused(&plan, &[0, 1, 0, 0, 0, 1], number, 17);
        refused(&nested("any-of"), &[0; 6], number, 17);
    }
    for number in [0, 2, 3, 4] {
        refused(&plan, &[0; 6], number, 31);
        refused(&plan, &[0, 1, 0, 0, 0, 1], number, 31);
    }
    assert_eq!(returned(&plan, &[0; 6], 1), [CLEAR, 32]);
    assert_eq!(returned(&plan, &[0, 1, 0, 0, 0, 1], 1), [32, CLEAR]);
}

/// The root is a task, an any-of or an optional group: 31 at every node, a member or not.
#[test]
fn other_roots() {
    for kind in ["any-of", "optional"] {
        for number in 0..6 {
            for list in [[0; 6], [0, 1, 0, 0, 0, 0], [0, 1, 0, 0, 0, 1]] {
                refused(&nested(kind), &list, number, 31);
            }
        }
    }
    let task = sample("one-task");
    refused(&task, &[0], 0, 31);
    refused(&task, &[0, 1], 1, 17);
    // The children of an all-of group below another root are none of the root's.
    let inner = plan("flags 1\n0 ROOT any-of\n1 GRP- all-of under 0\n2 A--- task 0 under 1\n");
    refused(&inner, &[0, 0, 1], 2, 16);
    refused(&inner, &[0, 1, 0], 2, 31);
    refused(&inner, &[0, 1, 0], 1, 31);
}

/// 15, 16, 17, 31, 32: each where the later ones apply too.
#[test]
fn order_of_checks() {
    let [all_of, any_of] = ["all-of", "any-of"].map(nested);
    // 15 before 16; with it 17, 31 and 32.
    refused(&all_of, &[3, 0, 0, 0, 0], 6, 15);
    refused(&any_of, &[1, 0, 0, 0, 0], 0, 15);
    refused(&all_of, &[0, 2], 1, 15);
    // 16 before 17, before 31 and before 32.
    refused(&all_of, &[0, 0, 0, 0, 0, 2], 6, 16);
    refused(&all_of, &[0, 0, 0, 0, 1, 0], usize::MAX, 16);
    refused(&any_of, &[0, 2, 0, 0, 0, 0], 1, 16);
    refused(&all_of, &[0, 0, 1, 0, 0, 0], 2, 16);
    refused(&all_of, &[1, 0, 0, 0, 0, 0], 0, 16);
    refused(&all_of, &[0, 1, 0, 0, 0, 255], 1, 16);
    // 17 before 31.
    refused(&any_of, &[0, 1, 0, 0, 0, 0], 6, 17);
    // 31 before 32: 1 is a member already, and 5 is none.
    refused(&any_of, &[0, 1, 0, 0, 0, 0], 1, 31);
    refused(&any_of, &[0, 1, 0, 0, 0, 0], 5, 31);
    refused(&all_of, &[0; 6], 2, 31);
}

/// A refused plan is told first, whatever is lent and named.
#[test]
fn refused_plans() {
    let b = sample("b");
    let doubled = fields(&b).order(1, 2).bytes();
    let mut renamed = b.clone();
    renamed[16] = b'a';
    for (plan, want) in [
        (sample("fifteen-bytes"), 1),
        (sample("nodes-0"), 2),
        (sample("nodes-129"), 2),
        (sample("one-byte-more"), 3),
        (b[..81].to_vec(), 3),
        (renamed, 5),
        (sample("minutes-10081"), 6),
        (doubled, 14),
    ] {
        for list in [&[][..], &[0; 4], &[0; 200], &[9; 200]] {
            for number in [0, 1, 500] {
                refused(&plan, list, number, want);
            }
        }
    }
}
