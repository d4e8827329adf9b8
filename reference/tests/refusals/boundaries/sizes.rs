//! Refusals 1, 2 and 3.

use reference::model::format::{Condition, Order, Plan};

use crate::tally::Tally;

pub fn all(tally: &mut Tally) {
    short_inputs(tally);
    plans_of_each_size(tally);
    each_value_of_each_size(tally);
}

fn short_inputs(tally: &mut Tally) {
    for len in 0..16 {
        tally.expect(&Plan::one_task(1).bytes()[..len], 1);
        tally.expect(&vec![0; len], 1);
        tally.expect(&vec![255; len], 1);
    }
    tally.expect(&[0; 16], 2);
    tally.expect(&[255; 16], 2);
}

/// Plans of the right length, with every size on both sides of its limits.
fn plans_of_each_size(tally: &mut Tally) {
    tally.expect(&Plan::new(1).bytes(), 2);
    tally.expect(&Plan::one_task(1).bytes(), 0);
    for nodes in (2..300).chain([512, 1 << 15, 65_535]) {
        let want = if nodes <= 128 { 0 } else { 2 };
        tally.expect(&Plan::flat(1, nodes).bytes(), want);
    }
    for flags in (0..300).chain([512, 1 << 15, 65_535]) {
        let want = if (1..=64).contains(&flags) { 0 } else { 2 };
        tally.expect(&Plan::one_task(flags).bytes(), want);
    }
    for conditions in [0, 1, 2, 1023, 1024, 1025, 1026, 2048, 65_535] {
        let want = if conditions <= 1024 { 0 } else { 2 };
        tally.expect(&with_conditions(conditions).bytes(), want);
    }
    for orders in [0, 1, 2, 511, 512, 513, 514, 1024, 65_535] {
        let want = if orders <= 512 { 0 } else { 2 };
        tally.expect(&with_orders(orders).bytes(), want);
    }
}

/// Preconditions that a flag is clear, 64 for each task; the plan has room for 8,128.
fn with_conditions(wanted: usize) -> Plan {
    let mut plan = Plan::flat(64, 128);
    let condition = |i: usize| Condition {
        node: (1 + i / 64) as u8,
        value: (i % 64) as u16,
    };
    plan.conditions = (0..wanted).map(condition).collect();
    plan
}

/// Orders in rising order; the plan has room for 8,001, after which they begin anew.
fn with_orders(wanted: usize) -> Plan {
    let mut plan = Plan::flat(1, 128);
    let pairs = (1..=127).flat_map(|a| (a + 1..=127).map(move |b| Order::new(a, b)));
    plan.orders = pairs.cycle().take(wanted).collect();
    plan
}

/// Every value of each size, in bytes whose length is that of one bare task.
fn each_value_of_each_size(tally: &mut Tally) {
    let limits = [
        (0, 1..=128, 1),
        (2, 0..=1024, 0),
        (4, 0..=512, 0),
        (6, 1..=64, 1),
    ];
    for (at, allowed, unchanged) in limits {
        let mut bytes = Plan::one_task(1).bytes();
        for value in 0..=u16::MAX {
            bytes[at..at + 2].copy_from_slice(&value.to_le_bytes());
            let changes_length = at != 6 && value != unchanged;
            let want = match (allowed.contains(&value), changes_length) {
                (false, _) => 2,
                (true, true) => 3,
                (true, false) => 0,
            };
            tally.expect(&bytes, want);
        }
    }
}
