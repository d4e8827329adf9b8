//! Refusals 1 to 14, each rule in the words of 01.

use crate::model::format::{
    Node, Plan, Sizes, ALL_OF, ANY_OF, HEAD, INCONDITION, NO_PARENT, OPTIONAL, POSTCONDITION, TASK,
};

#[cfg(test)]
mod tests;

/// 0, or the first of refusals 1 to 14 that applies.
pub fn refusal(bytes: &[u8]) -> u32 {
    if under_16_bytes(bytes) {
        return 1;
    }
    let sizes = Sizes::read(bytes);
    if size_beyond_limits(&sizes) {
        return 2;
    }
    if wrong_length(bytes, &sizes) {
        return 3;
    }
    let plan = Plan::read(bytes);
    for (number, applies) in RULES {
        if applies(&plan) {
            return number;
        }
    }
    0
}

/// The fields of an accepted plan, or the first of refusals 1 to 14 that applies.
pub fn accept(bytes: &[u8]) -> Result<Plan, u32> {
    match refusal(bytes) {
        0 => Ok(Plan::read(bytes)),
        number => Err(number),
    }
}

/// All of refusals 4 to 14 whose cause is in the plan.
pub fn causes(plan: &Plan) -> Vec<u32> {
    let found = RULES.iter().filter(|(_, applies)| applies(plan));
    found.map(|(number, _)| *number).collect()
}

/// A refusal's number, and whether its cause is in the plan.
type Rule = (u32, fn(&Plan) -> bool);

/// Refusals 4 to 14. Each rule can be asked of any plan, also of one with lower-numbered causes.
const RULES: [Rule; 11] = [
    (4, start_bit_beyond_flags),
    (5, bad_name),
    (6, bad_kind_or_minutes),
    (7, bad_parent),
    (8, group_without_child),
    (9, bad_condition),
    (10, conditions_not_rising),
    (11, both_signs),
    (12, incondition_without_postcondition),
    (13, bad_order),
    (14, orders_not_rising),
];

/// 1: under 16 bytes.
fn under_16_bytes(bytes: &[u8]) -> bool {
    bytes.len() < HEAD
}

/// 2: a size beyond its limits.
pub fn size_beyond_limits(sizes: &Sizes) -> bool {
    !((1..=128).contains(&sizes.nodes)
        && (0..=1024).contains(&sizes.conditions)
        && (0..=512).contains(&sizes.orders)
        && (1..=64).contains(&sizes.flags))
}

/// 3: wrong length.
fn wrong_length(bytes: &[u8], sizes: &Sizes) -> bool {
    bytes.len() != sizes.plan_len()
}

/// 4: start bit of a flag V or higher.
fn start_bit_beyond_flags(plan: &Plan) -> bool {
    for flag in 0..64 {
        if flag >= usize::from(plan.flags) && plan.starts_set(flag) {
            return true;
        }
    }
    false
}

/// 5: name character not allowed.
fn bad_name(plan: &Plan) -> bool {
    for node in &plan.nodes {
        for character in node.name {
            if !matches!(character, b'0'..=b'9' | b'A'..=b'Z' | b'-') {
                return true;
            }
        }
    }
    false
}

/// 6: kind over 3 (01: over 2, but 02 lets kind 3 pass); group with minutes; task over 10,080
/// minutes.
fn bad_kind_or_minutes(plan: &Plan) -> bool {
    for node in &plan.nodes {
        let bad = match node.kind {
            TASK => node.minutes > 10_080,
            ALL_OF | ANY_OF | OPTIONAL => node.minutes != 0,
            _ => true,
        };
        if bad {
            return true;
        }
    }
    false
}

/// 7: root's parent not 255; another's parent not a lower-numbered group.
fn bad_parent(plan: &Plan) -> bool {
    for (number, node) in plan.nodes.iter().enumerate() {
        let parent = usize::from(node.parent);
        let good = if number == 0 {
            node.parent == NO_PARENT
        } else {
            parent < number && plan.nodes[parent].kind != TASK
        };
        if !good {
            return true;
        }
    }
    false
}

/// 8: group without child.
fn group_without_child(plan: &Plan) -> bool {
    for (number, node) in plan.nodes.iter().enumerate() {
        let is_child = |other: &Node| usize::from(other.parent) == number;
        if node.kind != TASK && !plan.nodes.iter().any(is_child) {
            return true;
        }
    }
    false
}

/// 9: condition on no task of the plan; value over 383; flag V or higher.
fn bad_condition(plan: &Plan) -> bool {
    for condition in &plan.conditions {
        let node = plan.nodes.get(usize::from(condition.node));
        let on_task = node.is_some_and(|node| node.kind == TASK);
        if !on_task || condition.value > 383 || condition.flag() >= plan.flags {
            return true;
        }
    }
    false
}

/// 10: (node, value) pairs not strictly rising.
fn conditions_not_rising(plan: &Plan) -> bool {
    for pair in plan.conditions.windows(2) {
        if (pair[0].node, pair[0].value) >= (pair[1].node, pair[1].value) {
            return true;
        }
    }
    false
}

/// 11: one task, place and flag with both signs.
fn both_signs(plan: &Plan) -> bool {
    for one in &plan.conditions {
        for other in &plan.conditions {
            if one.node == other.node
                && one.place() == other.place()
                && one.flag() == other.flag()
                && one.sign() != other.sign()
            {
                return true;
            }
        }
    }
    false
}

/// 12: incondition (01: hold) on a flag that the same task has no postcondition (01: leaving) on.
fn incondition_without_postcondition(plan: &Plan) -> bool {
    for held in &plan.conditions {
        if held.place() == INCONDITION
            && !plan.conditions.iter().any(|left| {
                left.node == held.node
                    && left.place() == POSTCONDITION
                    && left.flag() == held.flag()
            })
        {
            return true;
        }
    }
    false
}

/// 13: order whose nodes are not children of one all-of group, or whose earlier number is not the
/// lower.
fn bad_order(plan: &Plan) -> bool {
    for order in &plan.orders {
        if !in_one_all_of(plan, order.earlier, order.later) || order.earlier >= order.later {
            return true;
        }
    }
    false
}

/// Whether both numbers are nodes and children of one all-of group. The root is no child.
fn in_one_all_of(plan: &Plan, one: u8, other: u8) -> bool {
    let group_above = |number: u8| {
        let parent = plan.nodes.get(usize::from(number))?.parent;
        plan.nodes.get(usize::from(parent)).map(|_| parent)
    };
    match (group_above(one), group_above(other)) {
        (Some(above), Some(above_other)) => {
            above == above_other && plan.nodes[usize::from(above)].kind == ALL_OF
        }
        _ => false,
    }
}

/// 14: (earlier, later) pairs not strictly rising.
fn orders_not_rising(plan: &Plan) -> bool {
    for pair in plan.orders.windows(2) {
        if (pair[0].earlier, pair[0].later) >= (pair[1].earlier, pair[1].later) {
            return true;
        }
    }
    false
}
