//! Random valid plans.

pub mod clear;
pub mod disordered;
pub mod pairs;

use std::collections::BTreeSet;
use std::iter::repeat_with;

use crate::model::format::{
    Condition, Order, Plan, Sizes, ALL_OF, ANY_OF, INCONDITION, NO_PARENT, OPTIONAL, POSTCONDITION,
    PRECONDITION, TASK,
};
use crate::tools::random::Random;

/// The greatest sizes that a plan may have.
pub const LIMITS: Sizes = Sizes {
    nodes: 128,
    conditions: 1024,
    orders: 512,
    flags: 64,
};

/// How the parents are drawn, and from which kinds those of the groups.
#[derive(Clone, Copy, Debug)]
pub struct Shape {
    parents: Parents,
    kinds: &'static [u8],
}

#[derive(Clone, Copy, Debug)]
enum Parents {
    Flat,
    Chain,
    Deep,
    Even,
    Bushy,
    Seven,
}

impl Shape {
    /// All nodes under the root.
    pub const FLAT: Shape = Shape::of(Parents::Flat);
    /// Each node under the one before it.
    pub const CHAIN: Shape = Shape::of(Parents::Chain);
    /// Each node under one of the last four.
    pub const DEEP: Shape = Shape::of(Parents::Deep);
    /// Each node under any lower one.
    pub const EVEN: Shape = Shape::of(Parents::Even);
    /// Some eight large groups.
    pub const BUSHY: Shape = Shape::of(Parents::Bushy);
    /// Seven nodes under the root, each other one under any lower node but the root.
    pub const SEVEN: Shape = Shape::of(Parents::Seven);

    const fn of(parents: Parents) -> Shape {
        let kinds = &[ALL_OF, ALL_OF, ALL_OF, ANY_OF, OPTIONAL];
        Shape { parents, kinds }
    }

    /// The same without optional groups.
    pub const fn without_optional(self) -> Shape {
        let kinds = &[ALL_OF, ALL_OF, ANY_OF];
        Shape { kinds, ..self }
    }
}

pub const SHAPES: [Shape; 5] = [
    Shape::FLAT,
    Shape::CHAIN,
    Shape::DEEP,
    Shape::EVEN,
    Shape::BUSHY,
];

/// A valid plan of random shape and of sizes at most these.
pub fn any_plan(random: &mut Random, most: Sizes) -> Plan {
    let sizes = Sizes {
        nodes: random.within(1, most.nodes),
        conditions: random.within(0, most.conditions),
        orders: random.within(0, most.orders),
        flags: random.within(1, most.flags),
    };
    let shape = random.pick(&SHAPES);
    plan(random, sizes, shape)
}

/// A valid plan with so many nodes and flags, and with so many conditions and orders or, where
/// the tree has no room for them, fewer.
pub fn plan(random: &mut Random, sizes: Sizes, shape: Shape) -> Plan {
    let flags = u16::try_from(sizes.flags).expect("at most 64 flags");
    let mut plan = tree(random, Plan::new(flags), sizes.nodes, shape);
    for flag in 0..sizes.flags {
        if random.below(2) == 1 {
            plan.set_at_start(flag);
        }
    }
    plan.conditions = conditions(random, &plan, sizes.conditions);
    plan.orders = orders(random, &plan, sizes.orders);
    plan
}

/// A valid plan of exactly these sizes with all its nodes under the root, drawn until there is one.
pub fn flat_plan(random: &mut Random, sizes: Sizes) -> Plan {
    let mut drawn = repeat_with(|| plan(random, sizes, Shape::FLAT));
    let plan = drawn.find(|plan| Sizes::read(&plan.bytes()) == sizes);
    plan.expect("draws never end")
}

/// A valid plan of so many nodes for exhaustive search: choices, chains of orders, and one or two
/// flags that many conditions speak of.
pub fn dense_plan(random: &mut Random, nodes: usize) -> Plan {
    let sizes = Sizes {
        nodes,
        conditions: 0,
        orders: random.within(0, nodes / 2),
        flags: random.within(1, 2),
    };
    let shape = random.pick(&[Shape::FLAT, Shape::DEEP, Shape::EVEN, Shape::BUSHY]);
    let mut plan = plan(random, sizes, shape);
    plan.conditions = dense_conditions(random, &plan);
    plan
}

/// Nodes whose kinds follow from the parents: with children a group, without a task.
fn tree(random: &mut Random, mut plan: Plan, nodes: usize, shape: Shape) -> Plan {
    let drawn = (1..nodes).map(|node| parent(random, node, shape.parents));
    let parents: Vec<usize> = drawn.collect();
    for node in 0..nodes {
        let above = match node {
            0 => NO_PARENT,
            _ => u8::try_from(parents[node - 1]).expect("at most 128 nodes"),
        };
        plan = if parents.contains(&node) {
            let kind = random.pick(shape.kinds);
            plan.node(&name(random), above, kind, 0)
        } else {
            let minutes = minutes(random);
            plan.node(&name(random), above, TASK, minutes)
        };
    }
    plan
}

fn parent(random: &mut Random, node: usize, parents: Parents) -> usize {
    match parents {
        Parents::Flat => 0,
        Parents::Chain => node - 1,
        Parents::Deep => random.within(node.saturating_sub(4), node - 1),
        Parents::Even => random.below(node),
        Parents::Bushy => random.below(node.min(8)),
        Parents::Seven => match node {
            1..=7 => 0,
            _ => random.within(1, node - 1),
        },
    }
}

fn name(random: &mut Random) -> [u8; 4] {
    [(); 4].map(|_| random.pick(b"0123456789ABCDEFGHIJKLMNOPQRSTUVWXYZ-"))
}

/// Names of few characters, so that many are equal or differ in the last place only.
pub fn alike(random: &mut Random, plan: &mut Plan) {
    for node in &mut plan.nodes {
        node.name = [&b"A"[..], b"A", b"AZ", b"-09AZ"].map(|from| random.pick(from));
    }
}

fn minutes(random: &mut Random) -> u16 {
    match random.below(8) {
        0 => 0,
        1 => 10_080,
        _ => random.below(10_081) as u16,
    }
}

/// Conditions drawn one by one and kept where no rule speaks against them.
fn conditions(random: &mut Random, plan: &Plan, wanted: usize) -> Vec<Condition> {
    let is_task = |node: &u8| plan.nodes[usize::from(*node)].kind == TASK;
    let tasks: Vec<u8> = (0..plan.nodes.len() as u8).filter(is_task).collect();
    let mut kept = BTreeSet::new();
    for _ in 0..20 * wanted {
        if kept.len() == wanted {
            break;
        }
        let node = random.pick(&tasks);
        let flag = random.below(usize::from(plan.flags)) as u16;
        let sign = random.below(2) as u16;
        let place = random.pick(&[PRECONDITION, INCONDITION, POSTCONDITION]);
        let has = |place, sign| {
            let condition = Condition::new(node, place, flag, sign);
            kept.contains(&(condition.node, condition.value))
        };
        let has_post = has(POSTCONDITION, 0) || has(POSTCONDITION, 1);
        if !has(place, 1 - sign) && (place != INCONDITION || has_post) {
            let condition = Condition::new(node, place, flag, sign);
            kept.insert((condition.node, condition.value));
        }
    }
    let condition = |(node, value)| Condition { node, value };
    kept.into_iter().map(condition).collect()
}

/// Conditions drawn for each task and flag; in some plans nearly all have some, in others few.
fn dense_conditions(random: &mut Random, plan: &Plan) -> Vec<Condition> {
    let rarity = random.within(1, 4);
    let mut drawn = Vec::new();
    for task in plan.tasks() {
        for flag in 0..plan.flags {
            let mut draw = |place, random: &mut Random| {
                let sign = random.below(2) as u16;
                drawn.push(Condition::new(task as u8, place, flag, sign));
            };
            if random.below(rarity + 1) == 0 {
                draw(PRECONDITION, random);
            }
            if random.below(rarity) == 0 {
                draw(POSTCONDITION, random);
                if random.below(2) == 0 {
                    draw(INCONDITION, random);
                }
            }
        }
    }
    drawn.sort_by_key(|condition| (condition.node, condition.value));
    drawn
}

/// Some of the pairs of children of one all-of group.
fn orders(random: &mut Random, plan: &Plan, wanted: usize) -> Vec<Order> {
    let mut pairs = Vec::new();
    for later in 1..plan.nodes.len() {
        let parent = plan.nodes[later].parent;
        if plan.nodes[usize::from(parent)].kind == ALL_OF {
            let siblings = (1..later).filter(|&node| plan.nodes[node].parent == parent);
            pairs.extend(siblings.map(|earlier| (earlier as u8, later as u8)));
        }
    }
    random.shuffle(&mut pairs);
    pairs.truncate(wanted);
    pairs.sort();
    let order = |(earlier, later)| Order::new(earlier, later);
    pairs.into_iter().map(order).collect()
}

#[cfg(test)]
mod tests {
    use super::*;
    use crate::model::rules::refusal;

    #[test]
    fn reaches_the_limits() {
        let plan = plan(&mut Random::new(1), LIMITS, Shape::BUSHY);
        let bytes = plan.bytes();
        assert_eq!(Sizes::read(&bytes), LIMITS);
        assert_eq!(bytes.len(), 5_136);
        assert_eq!(refusal(&bytes), 0);
    }

    #[test]
    fn is_valid_at_every_number_of_nodes() {
        let mut random = Random::new(2);
        for nodes in 1..=LIMITS.nodes {
            for shape in SHAPES {
                let sizes = Sizes {
                    nodes,
                    conditions: 3 * nodes,
                    orders: 2 * nodes,
                    flags: nodes.div_ceil(2),
                };
                let plan = plan(&mut random, sizes, shape);
                assert_eq!(plan.nodes.len(), nodes);
                assert_eq!(refusal(&plan.bytes()), 0, "{plan:?}");
            }
            let dense = dense_plan(&mut random, nodes);
            assert_eq!(dense.nodes.len(), nodes);
            assert_eq!(refusal(&dense.bytes()), 0, "{dense:?}");
        }
    }

    /// Optional groups as the root and under each kind of group, before and after siblings.
    #[test]
    fn optional_groups_everywhere() {
        let mut random = Random::new(4);
        let mut found = BTreeSet::new();
        for _ in 0..200 {
            let plan = dense_plan(&mut random, 8);
            for group in plan.optional_groups() {
                let above = plan.parent(group).map(|parent| plan.nodes[parent].kind);
                let number = group as u8;
                let before = plan.orders.iter().any(|order| order.earlier == number);
                let after = plan.orders.iter().any(|order| order.later == number);
                found.insert((above, before, after));
            }
        }
        let alone = |above| (above, false, false);
        let mut want = BTreeSet::from([None, Some(ANY_OF), Some(OPTIONAL)].map(alone));
        for ordered in [(false, false), (false, true), (true, false), (true, true)] {
            want.insert((Some(ALL_OF), ordered.0, ordered.1));
        }
        assert_eq!(found, want);
        for shape in SHAPES {
            let without = plan(&mut random, LIMITS, shape.without_optional());
            assert_eq!(without.optional_groups().count(), 0);
        }
    }
}
