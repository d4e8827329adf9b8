//! Pairs of random plans to be merged: whether there is room for both, which flags both speak of,
//! and how these start.

use super::clear::clear_plan;
use super::{any_plan, dense_plan, LIMITS, SHAPES};
use crate::model::format::{Plan, Sizes};
use crate::tools::random::Random;

/// A valid plan beside this one: nearly always there is room for both, and nearly always the flags
/// that both have start alike.
pub fn partner(random: &mut Random, plan: &Plan) -> Plan {
    let left = |limit: usize, taken: usize| limit.saturating_sub(taken);
    let room = Sizes {
        nodes: left(LIMITS.nodes - 1, plan.nodes.len()).max(1),
        conditions: left(LIMITS.conditions, plan.conditions.len()),
        orders: left(LIMITS.orders, plan.orders.len()),
        flags: LIMITS.flags,
    };
    let (few, shape) = (room.nodes.min(4), random.pick(&SHAPES));
    let mut other = match random.below(16) {
        0 => any_plan(random, LIMITS),
        1..=4 => clear_plan(random, room, shape),
        5..=9 => dense_plan(random, 1 + few / 2),
        _ => any_plan(random, room),
    };
    if random.below(16) > 0 {
        agree(plan, &mut other);
    }
    other
}

/// Makes the flags that both have start alike, by turning those of the other plan.
pub fn agree(plan: &Plan, other: &mut Plan) {
    for flag in 0..plan.flags.min(other.flags) {
        let at = usize::from(flag);
        if plan.starts_set(at) != other.starts_set(at) {
            turn(other, flag);
        }
    }
}

/// Turns a flag round: it has the other start, and all conditions on it have the other sign. The
/// verdict stays.
fn turn(plan: &mut Plan, flag: u16) {
    plan.start[usize::from(flag / 8)] ^= 1 << (flag % 8);
    let conditions = plan.conditions.iter_mut();
    for own in conditions.filter(|own| own.flag() == flag) {
        own.value ^= 64;
    }
    plan.conditions.sort_by_key(|c| (c.node, c.value));
}

/// The plan with other numbers for its flags, all different. Flags between them are clear at the
/// start.
fn flags_numbered(plan: &Plan, numbers: &[u16]) -> Plan {
    let highest = numbers.iter().max().expect("a plan has flags");
    let mut anew = Plan {
        flags: 1 + highest,
        start: [0; 8],
        ..plan.clone()
    };
    for (flag, &number) in numbers.iter().enumerate() {
        if plan.starts_set(flag) {
            anew.set_at_start(usize::from(number));
        }
    }
    for own in &mut anew.conditions {
        own.value = own.value - own.flag() + numbers[usize::from(own.flag())];
    }
    anew.conditions.sort_by_key(|c| (c.node, c.value));
    anew
}

/// Two CLEAR plans for which, with a root, so much is room. They have up to 32 flags each, and both
/// speak of at most so many; all flags that both have start alike.
pub fn clear_pair(random: &mut Random, room: Sizes, common: usize) -> [Plan; 2] {
    let nodes = random.within(1, room.nodes - 2);
    let mut draw = |nodes| {
        let sizes = Sizes {
            nodes,
            conditions: room.conditions / 2,
            orders: room.orders / 2,
            flags: random.within(1, 32),
        };
        let shape = random.pick(&SHAPES);
        clear_plan(random, sizes, shape)
    };
    let [one, other] = [nodes, room.nodes - 1 - nodes].map(&mut draw);
    let mut shared: Vec<u16> = (0..one.flags).collect();
    random.shuffle(&mut shared);
    shared.truncate(common);
    let mut own: Vec<u16> = (one.flags..64).collect();
    random.shuffle(&mut own);
    shared.extend(own);
    let mut other = flags_numbered(&other, &shared[..usize::from(other.flags)]);
    agree(&one, &mut other);
    match random.below(2) {
        0 => [one, other],
        _ => [other, one],
    }
}

#[cfg(test)]
mod tests {
    use super::*;
    use crate::model::merged::{collide, merge};
    use crate::model::rules::refusal;
    use crate::model::verdict::{verdict, Verdict};

    #[test]
    fn partners() {
        let mut random = Random::new(6);
        let mut merged = 0;
        for _ in 0..200 {
            let plan = any_plan(&mut random, LIMITS);
            let other = partner(&mut random, &plan);
            assert_eq!(refusal(&other.bytes()), 0, "{other:?}");
            merged += usize::from(merge(&plan.bytes(), &other.bytes()).is_ok());
        }
        assert!((150..200).contains(&merged), "{merged}");
    }

    /// Both are CLEAR, and merge; where they have no flag in common, they do not collide.
    #[test]
    fn clear_pairs() {
        let mut random = Random::new(7);
        let mut collisions = [0; 4];
        for nodes in (3..=30).chain([128]) {
            for (common, collisions) in collisions.iter_mut().enumerate() {
                let room = Sizes { nodes, ..LIMITS };
                let pair = clear_pair(&mut random, room, common);
                for plan in &pair {
                    assert_eq!(refusal(&plan.bytes()), 0, "{plan:?}");
                    assert_eq!(verdict(plan), Verdict::Clear, "{plan:?}");
                }
                let [one, other] = &pair;
                assert!(merge(&one.bytes(), &other.bytes()).is_ok(), "{pair:?}");
                *collisions += usize::from(collide(one, other));
            }
        }
        assert_eq!(collisions[0], 0);
        assert!((5..25).contains(&collisions[1]), "{collisions:?}");
    }
}
