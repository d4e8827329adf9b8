//! 1 to 14 of both plans, 33, 34 and 15, and wrong calls, which the comparison finds.

use reference::model::format::{Condition, Order, Plan, POSTCONDITION, SET};
use reference::model::merged;
use reference::tools::scenario::merged::Pair;

use super::{merge, pair, returned};
use crate::{plan, sample};

/// A merged plan, as `returned` tells it.
const MERGED: u32 = 256;

/// A plan of these sizes and 64 flags: tasks under an all-of root, each of which leaves up to 64
/// flags set, and orders from the first of them on.
fn sized(nodes: u8, conditions: u16, orders: usize) -> Vec<u8> {
    let mut plan = Plan::flat(64, nodes.into());
    let condition = |at: u16| Condition::new(1 + (at / 64) as u8, POSTCONDITION, at % 64, SET);
    plan.conditions = (0..conditions).map(condition).collect();
    let after = |earlier| (earlier + 1..nodes).map(move |later| Order::new(earlier, later));
    plan.orders = (1..nodes).flat_map(after).take(orders).collect();
    assert_eq!(plan.orders.len(), orders);
    plan.bytes()
}

/// Either way round.
#[track_caller]
fn both_ways(one: &[u8], other: &[u8], want: u32) {
    assert_eq!(returned(one, other), want);
    assert_eq!(returned(other, one), want);
}

/// With the root 128 nodes pass, and 129 do not.
#[test]
fn nodes() {
    let one_task = Plan::one_task(64).bytes();
    both_ways(&one_task, &sized(126, 0, 0), MERGED);
    both_ways(&one_task, &sized(127, 0, 0), 33);
    both_ways(&one_task, &sized(128, 0, 0), 33);
    for (one, other, want) in [
        (2, 125, MERGED),
        (63, 64, MERGED),
        (2, 126, 33),
        (64, 64, 33),
        (127, 127, 33),
        (128, 128, 33),
    ] {
        both_ways(&sized(one, 0, 0), &sized(other, 0, 0), want);
    }
}

/// 1,024 conditions pass, and 1,025 do not.
#[test]
fn conditions() {
    for (one, other, want) in [
        (0, 1_024, MERGED),
        (512, 512, MERGED),
        (1, 1_023, MERGED),
        (1, 1_024, 33),
        (512, 513, 33),
        (1_024, 1_024, 33),
    ] {
        both_ways(&sized(20, one, 0), &sized(20, other, 0), want);
    }
}

/// 512 orders pass, and 513 do not.
#[test]
fn orders() {
    for (one, other, want) in [
        (0, 512, MERGED),
        (256, 256, MERGED),
        (1, 511, MERGED),
        (1, 512, 33),
        (256, 257, 33),
        (512, 512, 33),
    ] {
        both_ways(&sized(40, 0, one), &sized(40, 0, other), want);
    }
}

/// All three at their limits, which makes the longest plan that there is; and each one beyond.
#[test]
fn largest() {
    let (one, other) = (sized(63, 512, 256), sized(64, 512, 256));
    assert_eq!(merge(&one, &other, &[7; 5_136]).returned, 256 + 5_136);
    assert_eq!(merge(&other, &one, &[7; 5_137]).returned, 256 + 5_136);
    assert_eq!(merge(&one, &other, &[7; 5_135]).returned, 15);
    for beyond in [
        sized(65, 512, 256),
        sized(64, 513, 256),
        sized(64, 512, 257),
    ] {
        both_ways(&one, &beyond, 33);
    }
}

/// One task, so many flags, of which these are set at the start.
fn starting(flags: u16, set: &[usize]) -> Vec<u8> {
    let plan = Plan::one_task(flags);
    let plan = set
        .iter()
        .fold(plan, |plan, &flag| plan.starting_with(flag));
    plan.bytes()
}

/// 34 where a flag of both starts differently, be it the last of them; flags beyond the smaller V
/// may start as they like.
#[test]
fn starts() {
    for (one, set, other, other_set, want) in [
        (1, &[][..], 1, &[][..], MERGED),
        (1, &[0], 1, &[0], MERGED),
        (1, &[0], 1, &[], 34),
        (1, &[], 2, &[1], MERGED),
        (2, &[], 2, &[1], 34),
        (2, &[0], 2, &[1], 34),
        (8, &[7], 64, &[7, 8, 63], MERGED),
        (8, &[7], 64, &[8, 63], 34),
        (9, &[], 64, &[8], 34),
        (8, &[], 64, &[8], MERGED),
        (63, &[], 64, &[63], MERGED),
        (64, &[], 64, &[63], 34),
        (64, &[63], 64, &[63], MERGED),
    ] {
        both_ways(&starting(one, set), &starting(other, other_set), want);
    }
}

/// Each refusal of a plan is that of the merge, as the first plan's or the second's. Here it is B
/// with some bytes changed, whose entries begin at 36, its conditions at 56 and its order at 80.
#[test]
fn of_either_plan() {
    let b = sample("b");
    both_ways(&b, &[], 1);
    both_ways(&b, &b[..15], 1);
    for (changes, want) in [
        (&[(0, 0)][..], 2),
        (&[(0, 6)], 3),
        (&[(8, 4)], 4),
        (&[(16, b'm')], 5),
        (&[(37, 4)], 6),
        (&[(40, 3)], 7),
        (&[(48, 0), (52, 0)], 8),
        (&[(56, 2)], 9),
        (&[(58, 3)], 10),
        (&[(66, 64)], 11),
        (&[(68, 1)], 12),
        (&[(80, 2)], 13),
    ] {
        let mut changed = b.clone();
        changes.iter().for_each(|&(at, byte)| changed[at] = byte);
        both_ways(&b, &changed, want);
        both_ways(&changed, &changed, want);
    }
    both_ways(&b, &Plan::read(&b).order(1, 2).bytes(), 14);
}

/// All of 1 to 14 of the first plan go before those of the second, and these before 33; 33 goes
/// before 34, and 34 before 15.
#[test]
fn order_of_checks() {
    let b = sample("b");
    let bad_name = [&b[..16], b"moor", &b[20..]].concat();
    let (short, wide) = (&b[..15], Plan::flat(2, 128).bytes());
    assert_eq!(returned(&bad_name, short), 5);
    assert_eq!(returned(short, &bad_name), 1);
    assert_eq!(returned(&wide, &bad_name), 5);
    assert_eq!(returned(&wide, short), 1);
    let set = plan("flags 1\nstart 0\n0 TASK task 0\n");
    both_ways(&wide, &set, 33);
    both_ways(&b, &set, 34);
    for (first, second, want) in [
        (&bad_name, &set, 5),
        (&b, &bad_name, 5),
        (&wide, &b, 33),
        (&b, &set, 34),
        (&b, &b, 15),
    ] {
        for len in [0, 1, 16, 100, 155] {
            let out = vec![7; len];
            let after = merge(first, second, &out);
            assert_eq!((after.returned, after.out), (want, out));
        }
    }
}

/// What an output held before is kept behind the plan and decides nothing.
#[test]
fn outputs_of_any_bytes() {
    let (b, task) = (sample("b"), sample("one-task"));
    let plan = super::merged(&b, &task);
    for byte in 0..=255 {
        let after = merge(&b, &task, &vec![byte; plan.len() + 5]);
        assert_eq!(after.returned, 256 + plan.len() as u32);
        assert_eq!(after.out, [&plan[..], &[byte; 5]].concat());
    }
}

/// The comparison says this of a call that returns or leaves something else.
#[track_caller]
fn wrong(pair: &Pair, call: impl FnOnce([&mut [u8]; 2], &mut [u8]) -> u32, says: &str) {
    let told = pair.compared(&[7; 60], call).unwrap_err();
    assert!(told.contains(says), "{told}");
}

/// Calls that return another number, or change a byte of either plan or another one of the output.
#[test]
fn wrong_calls() {
    let (task, b) = (sample("one-task"), sample("b"));
    let set = plan("flags 1\nstart 0\n0 TASK task 0\n");
    for (first, second, want) in [(&task, &task, 256 + 40), (&task, &set, 34), (&task, &b, 15)] {
        let pair = pair(first, second);
        let right = |out: &mut [u8]| merged::answer(&merged::merge(first, second), out);
        let says = format!("returns 40, not {want}");
        wrong(&pair, |_, _| 40, &says);
        for at in [0, 39, 40, 59] {
            let written = |_: [&mut [u8]; 2], out: &mut [u8]| {
                let returned = right(out);
                out[at] ^= 1;
                returned
            };
            wrong(&pair, written, "leaves 60 bytes");
        }
        for plan in [0, 1] {
            let written = |plans: [&mut [u8]; 2], out: &mut [u8]| {
                plans[plan][23] ^= 1;
                right(out)
            };
            wrong(&pair, written, "leaves the plans");
        }
    }
}
