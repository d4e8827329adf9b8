//! Refusals 13 and 14.

use reference::model::format::{Order, Plan, NO_PARENT, OPTIONAL};

use crate::tally::Tally;

/// Two all-of groups (0 and 2) and an any-of group (5), each with several children.
fn groups() -> Plan {
    Plan::new(1)
        .all_of(b"ROOT", NO_PARENT)
        .task(b"TSK1", 0, 0)
        .all_of(b"ALL-", 0)
        .task(b"TSK3", 2, 0)
        .task(b"TSK4", 2, 0)
        .any_of(b"ANY-", 2)
        .task(b"TSK6", 5, 0)
        .task(b"TSK7", 5, 0)
        .task(b"TSK8", 0, 0)
}

/// All orders that the plan may have, rising.
const ALLOWED: [(u8, u8); 6] = [(1, 2), (1, 8), (2, 8), (3, 4), (3, 5), (4, 5)];

pub fn all(tally: &mut Tally) {
    single(tally, groups());
    single(tally, with_optional());
    after_good_ones(tally);
    past_the_last_node(tally);
    pairs(tally);
}

/// The same with an optional group (5).
fn with_optional() -> Plan {
    let mut plan = groups();
    plan.nodes[5].kind = OPTIONAL;
    plan
}

/// Every two numbers as an order.
fn single(tally: &mut Tally, plan: Plan) {
    for earlier in 0..=255 {
        for later in 0..=255 {
            let want = if ALLOWED.contains(&(earlier, later)) {
                0
            } else {
                13
            };
            tally.expect(&plan.clone().order(earlier, later).bytes(), want);
        }
    }
}

/// A bad order as the last of several, which are rising.
fn after_good_ones(tally: &mut Tally) {
    let good = ALLOWED
        .iter()
        .fold(groups(), |plan, pair| plan.order(pair.0, pair.1));
    tally.expect(&good.bytes(), 0);
    for (earlier, later) in [
        (4, 8),
        (5, 6),
        (5, 8),
        (6, 7),
        (7, 8),
        (8, 8),
        (8, 9),
        (9, 10),
    ] {
        tally.expect(&good.clone().order(earlier, later).bytes(), 13);
    }
}

/// The number after the last node, where the first byte after the entries, read as that node's
/// parent, is the parent of the earlier node.
fn past_the_last_node(tally: &mut Tally) {
    let plan = groups().order(2, 8).order(3, 9);
    assert_eq!(plan.orders[0].earlier, plan.nodes[3].parent);
    tally.expect(&plan.bytes(), 13);
}

/// Two allowed orders after each other, rising, equal and falling, alone and among others.
fn pairs(tally: &mut Tally) {
    for (i, first) in ALLOWED.iter().enumerate() {
        for (j, second) in ALLOWED.iter().enumerate() {
            let want = if i < j { 0 } else { 14 };
            let two = [first, second].map(|pair| Order::new(pair.0, pair.1));
            let mut plan = groups();
            plan.orders = two.to_vec();
            tally.expect(&plan.bytes(), want);
        }
    }
    let all = ALLOWED.map(|pair| Order::new(pair.0, pair.1));
    for i in 0..all.len() {
        let mut plan = groups();
        plan.orders = all.to_vec();
        plan.orders.insert(i, all[i]);
        tally.expect(&plan.bytes(), 14);
        for j in i + 1..all.len() {
            plan.orders = all.to_vec();
            plan.orders.swap(i, j);
            tally.expect(&plan.bytes(), 14);
        }
    }
}
