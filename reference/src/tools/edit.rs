//! Random changes to the fields of a plan, near enough to what is allowed to meet every rule.

use crate::model::format::{Condition, Order, Plan};
use crate::tools::random::Random;

/// Changes one field or the place of one condition or order. The plan may stay valid.
pub fn edit(plan: &mut Plan, random: &mut Random) {
    let edits: [fn(&mut Plan, &mut Random); 8] = [
        flags,
        name,
        kind_or_minutes,
        parent,
        condition,
        conditions,
        order,
        orders,
    ];
    random.pick(&edits)(plan, random);
}

fn flags(plan: &mut Plan, random: &mut Random) {
    if random.below(2) == 0 {
        plan.set_at_start(random.below(64));
    } else {
        plan.flags = random.within(0, 65) as u16;
    }
}

fn name(plan: &mut Plan, random: &mut Random) {
    let node = random.below(plan.nodes.len());
    plan.nodes[node].name[random.below(4)] = random.byte();
}

fn kind_or_minutes(plan: &mut Plan, random: &mut Random) {
    let at = random.below(plan.nodes.len());
    let node = &mut plan.nodes[at];
    if random.below(2) == 0 {
        node.kind = random.below(5) as u8;
    } else {
        node.minutes = random.pick(&[0, 1, 10_080, 10_081, 65_535]);
    }
}

fn parent(plan: &mut Plan, random: &mut Random) {
    let node = random.below(plan.nodes.len());
    plan.nodes[node].parent = node_number(plan, random);
}

/// A node of the plan, the number after the last one, or 255.
fn node_number(plan: &Plan, random: &mut Random) -> u8 {
    match random.below(8) {
        0 => 255,
        _ => random.within(0, plan.nodes.len()) as u8,
    }
}

fn condition(plan: &mut Plan, random: &mut Random) {
    if plan.conditions.is_empty() {
        return;
    }
    let at = random.below(plan.conditions.len());
    match random.below(4) {
        0 => plan.conditions[at].node = node_number(plan, random),
        1 => plan.conditions[at].value = random.below(400) as u16,
        2 => plan.conditions[at].value ^= 1 << random.below(9),
        _ => {
            plan.conditions.remove(at);
        }
    }
}

/// Swaps two neighbours, repeats one, or puts the opposite of one at its place.
fn conditions(plan: &mut Plan, random: &mut Random) {
    if plan.conditions.len() < 2 {
        return;
    }
    let at = random.below(plan.conditions.len() - 1);
    let Condition { node, value } = plan.conditions[at];
    match random.below(3) {
        0 => plan.conditions.swap(at, at + 1),
        1 => plan.conditions.insert(at, plan.conditions[at]),
        _ => {
            let opposite = Condition {
                node,
                value: value ^ 64,
            };
            plan.conditions.push(opposite);
            plan.conditions.sort_by_key(|c| (c.node, c.value));
        }
    }
}

fn order(plan: &mut Plan, random: &mut Random) {
    let (earlier, later) = (node_number(plan, random), node_number(plan, random));
    if plan.orders.is_empty() {
        plan.orders.push(Order::new(earlier, later));
        return;
    }
    let at = random.below(plan.orders.len());
    match random.below(3) {
        0 => plan.orders[at].earlier = earlier,
        1 => plan.orders[at].later = later,
        _ => {
            plan.orders.push(Order::new(earlier, later));
            plan.orders.sort_by_key(|o| (o.earlier, o.later));
        }
    }
}

/// Swaps two neighbours, repeats one, or takes one away.
fn orders(plan: &mut Plan, random: &mut Random) {
    if plan.orders.len() < 2 {
        return;
    }
    let at = random.below(plan.orders.len() - 1);
    match random.below(3) {
        0 => plan.orders.swap(at, at + 1),
        1 => plan.orders.insert(at, plan.orders[at]),
        _ => {
            plan.orders.remove(at);
        }
    }
}
