//! Merged plans (02, 112: two books pooled): both under one new root, and what the one may have
//! against the other.

use crate::model::format::{
    Condition, Node, Order, Plan, Sizes, ALL_OF, INCONDITION, NO_PARENT, POSTCONDITION,
    PRECONDITION,
};
use crate::model::literal::Literal;
use crate::model::rules::{accept, size_beyond_limits};

/// The merged plan; or the first that applies of 1 to 14 of the first plan, 1 to 14 of the second,
/// 33 and 34.
pub fn merge(first: &[u8], second: &[u8]) -> Result<Plan, u32> {
    let plans = [accept(first)?, accept(second)?];
    if size_beyond_limits(&sizes(&plans)) {
        return Err(33);
    }
    if start_differs(&plans) {
        return Err(34);
    }
    Ok(joined(&plans))
}

/// The sizes of both together, the new root counted.
fn sizes([first, second]: &[Plan; 2]) -> Sizes {
    Sizes {
        nodes: 1 + first.nodes.len() + second.nodes.len(),
        conditions: first.conditions.len() + second.conditions.len(),
        orders: first.orders.len() + second.orders.len(),
        flags: usize::from(first.flags.max(second.flags)),
    }
}

/// 34: a flag that both have starts differently.
fn start_differs(plans: &[Plan; 2]) -> bool {
    (0..64).any(|flag| {
        let [first, second] = plans.each_ref().map(|plan| starts_set(plan, flag));
        first.is_some() && second.is_some() && first != second
    })
}

/// Whether a flag starts set in this plan, if the plan has it.
fn starts_set(plan: &Plan, flag: usize) -> Option<bool> {
    let has = flag < usize::from(plan.flags);
    has.then(|| plan.starts_set(flag))
}

fn joined(plans: &[Plan; 2]) -> Plan {
    let root = Node {
        name: *b"HULL",
        parent: NO_PARENT,
        kind: ALL_OF,
        minutes: 0,
    };
    let mut all = Plan {
        flags: sizes(plans).flags as u16,
        start: [0; 8],
        nodes: vec![root],
        conditions: Vec::new(),
        orders: Vec::new(),
    };
    for flag in 0..64 {
        if plans.iter().find_map(|plan| starts_set(plan, flag)) == Some(true) {
            all.set_at_start(flag);
        }
    }
    plans.iter().for_each(|plan| add(&mut all, plan));
    all.conditions.sort_by_key(|c| (c.node, c.value));
    all.orders.sort_by_key(|o| (o.earlier, o.later));
    all
}

/// Adds the nodes of a plan after those that are there, its root under the first of these, and its
/// conditions and orders. All its numbers are shifted.
fn add(all: &mut Plan, plan: &Plan) {
    let before = all.nodes.len() as u8;
    all.nodes.extend(plan.nodes.iter().map(|node| {
        let parent = match node.parent {
            NO_PARENT => 0,
            parent => before + parent,
        };
        Node { parent, ..*node }
    }));
    all.conditions.extend(plan.conditions.iter().map(|own| {
        let node = before + own.node;
        Condition { node, ..*own }
    }));
    let orders = plan.orders.iter();
    all.orders
        .extend(orders.map(|own| Order::new(before + own.earlier, before + own.later)));
}

/// Whether a literal needed or held in one of the plans is held or left opposite in the other, or
/// the two leave a flag opposite ways.
pub fn collide(one: &Plan, other: &Plan) -> bool {
    is_disturbed(one, other) || is_disturbed(other, one)
}

/// Whether a literal needed or held in this plan is held or left opposite in the other, or one that
/// is left in this plan is left opposite in the other.
fn is_disturbed(plan: &Plan, other: &Plan) -> bool {
    plan.literals().any(|literal| {
        let here = |places: &[u16]| speaks(plan, places, literal);
        let opposite = |places: &[u16]| speaks(other, places, literal.opposite());
        here(&[PRECONDITION, INCONDITION]) && opposite(&[INCONDITION, POSTCONDITION])
            || here(&[POSTCONDITION]) && opposite(&[POSTCONDITION])
    })
}

/// Whether any task has the literal at one of these places.
fn speaks(plan: &Plan, places: &[u16], literal: Literal) -> bool {
    plan.conditions.iter().any(|own| {
        let of_it = Literal::new(own.flag(), own.sign());
        places.contains(&own.place()) && of_it == literal
    })
}

/// What the call returns where this is the merged plan or the refusal: 256 and the length of the
/// plan, which is then at the beginning of the output, with the rest as it was; or the refusal or
/// 15, with the output as it was.
pub fn answer(merged: &Result<Plan, u32>, out: &mut [u8]) -> u32 {
    let written = match merged {
        Ok(plan) => plan.write(out),
        Err(number) => Err(*number),
    };
    match written {
        Ok(len) => 256 + len as u32,
        Err(number) => number,
    }
}

#[cfg(test)]
mod tests {
    use super::*;
    use crate::model::format::{node, CLEAR, HEAD, OPTIONAL, SET, TASK};

    /// An all-of root with two tasks in order, and 9 flags, of which this one is set at the start.
    fn ordered(flag: usize) -> Plan {
        let mut plan = Plan {
            flags: 9,
            start: [0; 8],
            nodes: vec![node(NO_PARENT, ALL_OF), node(0, TASK), node(0, TASK)],
            conditions: vec![
                Condition::new(1, PRECONDITION, 8, SET),
                Condition::new(2, POSTCONDITION, 8, CLEAR),
            ],
            orders: vec![Order::new(1, 2)],
        };
        plan.set_at_start(flag);
        plan
    }

    /// An optional root with one task, and 3 flags.
    fn optional() -> Plan {
        Plan {
            flags: 3,
            start: [0; 8],
            nodes: vec![node(NO_PARENT, OPTIONAL), node(0, TASK)],
            conditions: vec![Condition::new(1, POSTCONDITION, 0, SET)],
            orders: Vec::new(),
        }
    }

    #[test]
    fn numbers_shifted() {
        let root = Node {
            name: *b"HULL",
            ..node(NO_PARENT, ALL_OF)
        };
        let [first, second] = [optional(), ordered(8)];
        let want = Plan {
            flags: 9,
            start: [0, 1, 0, 0, 0, 0, 0, 0],
            nodes: vec![
                root,
                node(0, OPTIONAL),
                node(1, TASK),
                node(0, ALL_OF),
                node(3, TASK),
                node(3, TASK),
            ],
            conditions: vec![
                Condition::new(2, POSTCONDITION, 0, SET),
                Condition::new(4, PRECONDITION, 8, SET),
                Condition::new(5, POSTCONDITION, 8, CLEAR),
            ],
            orders: vec![Order::new(4, 5)],
        };
        assert_eq!(merge(&first.bytes(), &second.bytes()), Ok(want));
        let twice = merge(&second.bytes(), &second.bytes()).unwrap();
        let parents: Vec<u8> = twice.nodes.iter().map(|node| node.parent).collect();
        assert_eq!(parents, [NO_PARENT, 0, 1, 1, 0, 4, 4]);
        assert_eq!(twice.orders, [Order::new(2, 3), Order::new(5, 6)]);
        assert_eq!((twice.flags, twice.start), (9, ordered(8).start));
    }

    /// A plan of so many nodes, tasks under the root.
    fn flat(nodes: usize) -> Plan {
        let mut plan = optional();
        plan.nodes.resize(nodes, node(0, TASK));
        plan
    }

    /// Each refusal where those before it do not apply and those after it do.
    #[test]
    fn refusals() {
        let [wide, differs, plan] = [flat(125).bytes(), ordered(0).bytes(), optional().bytes()];
        let [empty, short] = [&[][..], &plan[..plan.len() - 1]];
        for (first, second, want) in [
            (short, empty, 3),
            (&wide, empty, 1),
            (&wide, short, 3),
            (&wide, &differs, 33),
            (&differs, &wide, 33),
            (&plan, &differs, 34),
            (&differs, &plan, 34),
            (&plan, &plan, 15),
            (&wide, &plan, 15),
        ] {
            let mut out = [7; 20];
            assert_eq!(answer(&merge(first, second), &mut out), want);
            assert_eq!(out, [7; 20]);
        }
        let len = HEAD + 8 * 5 + 3 * 2;
        let mut out = vec![7; len + 3];
        let merged = merge(&plan, &plan);
        assert_eq!(answer(&merged, &mut out), 256 + len as u32);
        assert_eq!(out, [&merged.unwrap().bytes()[..], &[7; 3]].concat());
    }

    /// One flag, at each two places and with each two signs.
    #[test]
    fn collisions() {
        let plan = |place, sign| Plan {
            conditions: vec![Condition::new(1, place, 0, sign)],
            ..optional()
        };
        let [need, hold, leaving] = [PRECONDITION, INCONDITION, POSTCONDITION];
        for (one, other, want) in [
            (need, need, false),
            (need, hold, true),
            (need, leaving, true),
            (hold, hold, true),
            (hold, leaving, true),
            (leaving, leaving, true),
        ] {
            for sign in [CLEAR, SET] {
                let (here, there) = (plan(one, sign), plan(other, 1 - sign));
                let found = [collide(&here, &there), collide(&there, &here)];
                assert_eq!(found, [want; 2], "{one}, {other}");
                assert!(!collide(&here, &plan(other, sign)));
            }
        }
        assert!(!collide(&ordered(8), &optional()));
        assert!(collide(&ordered(8), &ordered(8)));
    }
}
