//! Sequences of the root's children.

pub mod first;

use std::iter::repeat_with;

use reference::model::format::{Plan, Sizes, ALL_OF, NO_PARENT};
use reference::model::sequence::read;
use reference::tools::generate::clear::{clear_plan, shaken_plan};
use reference::tools::generate::disordered::disordered;
use reference::tools::generate::{any_plan, dense_plan, Shape, LIMITS};
use reference::tools::random::Random;
use reference::tools::scenario::tally::Tally;

/// Plans of up to 13 nodes with roots of every kind: the more children, the fewer.
pub fn small(tally: &mut Tally) {
    let mut random = Random::new(211);
    for nodes in 1..=13 {
        for _ in 0..1_000 {
            let plan = dense_plan(&mut random, nodes);
            if plan.children(0).count() < 7 || random.below(8) == 0 {
                tally.sequence(&plan.bytes());
            }
        }
    }
}

/// What a child of the root is: a task, or a choice between that task and one without conditions,
/// or an optional group of it.
type Kind = fn(Plan) -> Plan;

const KINDS: [Kind; 3] = [
    |plan| plan.task(b"TASK", 0, 0),
    |plan| {
        let group = plan.nodes.len() as u8;
        let choice = plan.any_of(b"PICK", 0).task(b"BARE", group, 0);
        choice.task(b"TASK", group, 0)
    },
    |plan| {
        let group = plan.nodes.len() as u8;
        plan.optional(b"DROP", 0).task(b"TASK", group, 0)
    },
];

/// Adds a child of this kind; its task has no precondition, or clear or set, and so for what it
/// leaves.
fn with_child(plan: Plan, kind: Kind, conditions: usize) -> Plan {
    let mut plan = kind(plan);
    if let sign @ 1.. = conditions % 3 {
        plan = plan.pre(0, sign as u16 - 1);
    }
    if let sign @ 1.. = conditions / 3 {
        plan = plan.post(0, sign as u16 - 1);
    }
    plan
}

/// Every plan of three tasks and one flag, clear at the start and set, with every set of orders;
/// and of two and three children of all these kinds, with some set of orders.
pub fn every(tally: &mut Tally) {
    let mut random = Random::new(212);
    for (kinds, children) in [(1, 3), (3, 2), (3, 3)] {
        let count = 1 << (children * (children - 1) / 2);
        for plan in all_of_kinds(kinds, children) {
            let sets = match kinds {
                1 => (0..count).collect(),
                _ => vec![random.below(count)],
            };
            for set in sets {
                let ordered = with_orders(&plan, set);
                tally.sequence(&ordered.bytes());
                tally.sequence(&ordered.starting_with(0).bytes());
            }
        }
    }
}

/// All plans of so many children, each of one of the first kinds, without orders.
pub fn all_of_kinds(kinds: usize, children: usize) -> Vec<Plan> {
    let root = Plan::new(1).all_of(b"ROOT", NO_PARENT);
    (0..children).fold(vec![root], |plans, _| {
        let with_each = |plan: Plan| {
            let each = 0..9 * kinds;
            each.map(move |of| with_child(plan.clone(), KINDS[of / 9], of % 9))
        };
        plans.into_iter().flat_map(with_each).collect()
    })
}

/// The plan with those orders between the root's children that the bits of this number name.
pub fn with_orders(plan: &Plan, bits: usize) -> Plan {
    let children: Vec<usize> = plan.children(0).collect();
    let pairs = pairs(&children).into_iter().enumerate();
    let named = pairs.filter(|(at, _)| bits >> at & 1 == 1);
    named.fold(plan.clone(), |plan, (_, (earlier, later))| {
        plan.order(earlier as u8, later as u8)
    })
}

/// Any two of the list, the one ahead in it first.
fn pairs(list: &[usize]) -> Vec<(usize, usize)> {
    let places = list.iter().enumerate();
    let behind = |(at, &ahead)| list[at + 1..].iter().map(move |&other| (ahead, other));
    places.flat_map(behind).collect()
}

/// Draws a plan of these sizes and this shape.
type Draw = fn(&mut Random, Sizes, Shape) -> Plan;

/// A plan with an all-of root, so drawn, whose root's children have changed places.
fn hidden(random: &mut Random, draw: Draw, sizes: Sizes, shape: Shape) -> Plan {
    let mut drawn = repeat_with(|| draw(random, sizes, shape));
    let plan = drawn.find(|plan| plan.nodes[0].kind == ALL_OF);
    disordered(random, &plan.expect("draws never end"))
}

/// Sequences that have to be found among many, most of them not in rising order.
pub fn places_changed(tally: &mut Tally) {
    let mut random = Random::new(213);
    let mut not_rising = 0;
    for nodes in (3..=16).chain([24, 40]) {
        for _ in 0..40 {
            let sizes = Sizes {
                nodes,
                conditions: 12 * nodes,
                orders: 2 * nodes,
                flags: random.within(1, 6),
            };
            let shape = random.pick(&[Shape::SEVEN, Shape::EVEN, Shape::FLAT]);
            let draw = random.pick(&[clear_plan, clear_plan, shaken_plan]);
            let plan = hidden(&mut random, draw, sizes, shape);
            let found = tally.sequence(&plan.bytes());
            let falls = |list: Vec<usize>| !list.is_sorted();
            not_rising += usize::from(read(found).is_some_and(falls));
        }
    }
    println!("places changed: {not_rising} sequences that do not rise");
    assert!(not_rising >= 100);
}

/// Plans of 128 nodes and 64 flags. Of those that were CLEAR a sequence is found. Few have seven
/// children, and near misses few, since the reference tries one sequence after another.
pub fn large(tally: &mut Tally) {
    let mut random = Random::new(214);
    for conditions in [100, 400, 1_024] {
        let sizes = Sizes {
            conditions,
            ..LIMITS
        };
        let mut drawn = |draw, shape| {
            let plan = hidden(&mut random, draw, sizes, shape);
            (tally.sequence(&plan.bytes()), plan)
        };
        for at in 0..30 {
            if at % 10 == 0 {
                let (word, plan) = drawn(clear_plan, Shape::SEVEN);
                assert_eq!(word >> 56, 7, "{plan:?}");
            }
            let (word, plan) = drawn(clear_plan, Shape::DEEP);
            assert!(word > 24, "{plan:?}");
            drawn(shaken_plan, Shape::DEEP);
        }
    }
    for _ in 0..60 {
        tally.sequence(&any_plan(&mut random, LIMITS).bytes());
    }
}
