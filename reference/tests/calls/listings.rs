//! Listings.

use reference::model::calls::{Answers, Call};
use reference::model::format::{Plan, Sizes, NO_PARENT, SET, TASK};
use reference::model::listing::LISTING_LEN;
use reference::tools::generate::clear::{clear_plan, shaken_plan};
use reference::tools::generate::{alike, any_plan, dense_plan, plan, LIMITS, SHAPES};
use reference::tools::random::Random;
use reference::tools::scenario::tally::Tally;
use reference::tools::scenario::Case;

/// The listing with output of so many bytes: what it returns.
fn listed(tally: &mut Tally, random: &mut Random, plan: &Plan, len: usize) -> u32 {
    let case = Case {
        call: Call::Listing,
        plan: plan.bytes(),
        blocked: Vec::new(),
        lent: random.bytes(len),
    };
    let answers = Answers::by_rules(&case.plan);
    tally.compare(&answers, &case).returned
}

/// Plans of all sizes and shapes, with output of 2,048 bytes and up to 99 more.
pub fn random(tally: &mut Tally) {
    let mut random = Random::new(121);
    let medium = Sizes {
        nodes: 40,
        conditions: 20,
        orders: 60,
        flags: 8,
    };
    let mut plans: Vec<Plan> = Vec::new();
    for nodes in 1..=20 {
        plans.extend((0..200).map(|_| dense_plan(&mut random, nodes)));
    }
    plans.extend((0..4_000).map(|_| any_plan(&mut random, medium)));
    for shape in SHAPES {
        for orders in [0, 20, 100, 300, 512] {
            let sizes = Sizes { orders, ..LIMITS };
            for draw in [plan, clear_plan, shaken_plan] {
                plans.extend((0..2).map(|_| draw(&mut random, sizes, shape)));
            }
        }
    }
    for mut plan in plans {
        if random.below(2) == 0 {
            alike(&mut random, &mut plan);
        }
        let len = LISTING_LEN + random.below(100);
        listed(tally, &mut random, &plan, len);
    }
}

/// The greatest lengths and waits, deep trees, and tasks that all wait equally long.
pub fn extremes(tally: &mut Tally) {
    let mut random = Random::new(122);
    let mut plans = Vec::new();
    for minutes in [0, 1, 9, 10, 99, 100, 999, 1_000, 9_999, 10_000, 10_080] {
        let in_chain = chain(Plan::flat(1, 128), 1, 127);
        for plan in [Plan::flat(1, 128), in_chain, nested(42), nested(2)] {
            plans.push(with_minutes(plan, minutes));
        }
    }
    let longest = doomed(with_minutes(chain(Plan::flat(1, 128), 1, 127), 10_080));
    // 15 bytes, then 7 for a wait of 0, 11 for each of 9, 12 for each of 90, 13 for each of 27.
    assert_eq!(
        listed(tally, &mut random, &longest, LISTING_LEN),
        256 + 1_552
    );
    plans.push(longest);
    for plan in plans {
        listed(tally, &mut random, &plan, LISTING_LEN);
        // Ties by other names.
        let mut renamed = plan.clone();
        for node in &mut renamed.nodes {
            node.name = [(); 4].map(|()| random.pick(b"-09AMZ"));
        }
        listed(tally, &mut random, &renamed, LISTING_LEN);
        alike(&mut random, &mut renamed);
        listed(tally, &mut random, &renamed, LISTING_LEN);
    }
}

/// Tasks that wait equally long: names that fall with the nodes, that rise, that differ in one
/// place only, by each two of the characters, and that are equal.
pub fn ties(tally: &mut Tally) {
    let mut random = Random::new(124);
    let characters = b"-0123456789ABCDEFGHIJKLMNOPQRSTUVWXYZ";
    let mut compare = |names: &[[u8; 4]]| {
        let mut plan = Plan::flat(1, names.len() + 1);
        for (node, name) in plan.nodes[1..].iter_mut().zip(names) {
            node.name = *name;
        }
        listed(tally, &mut random, &plan, LISTING_LEN);
    };
    for place in 0..4 {
        let named = |c: &u8| {
            let mut name = *b"MMMM";
            name[place] = *c;
            name
        };
        for x in characters {
            for y in characters {
                compare(&[named(x), named(y)]);
            }
        }
        let mut all: Vec<[u8; 4]> = characters.iter().map(named).collect();
        compare(&all);
        all.reverse();
        compare(&all);
    }
    for tasks in [1, 2, 4, 127] {
        compare(&vec![*b"SAME"; tasks]);
    }
}

/// Output of every length up to 40 from 2,048, and of none.
pub fn lengths(tally: &mut Tally) {
    let mut random = Random::new(123);
    let largest = plan(&mut random, LIMITS, SHAPES[4]);
    for plan in [Plan::one_task(1), largest] {
        let around = LISTING_LEN - 40..=LISTING_LEN + 40;
        for len in around.chain([0, 1, 16, 100, 1_666, 5_000]) {
            let returned = listed(tally, &mut random, &plan, len);
            assert_eq!(returned == 15, len < LISTING_LEN);
        }
    }
}

fn with_minutes(mut plan: Plan, minutes: u16) -> Plan {
    for node in plan.nodes.iter_mut().filter(|node| node.kind == TASK) {
        node.minutes = minutes;
    }
    plan
}

/// The nodes from first to last, one after another.
fn chain(plan: Plan, first: u8, last: u8) -> Plan {
    (first..last).fold(plan, |plan, node| plan.order(node, node + 1))
}

/// All-of groups, each in the one before it and after a task there, so that waits add up.
fn nested(depth: u8) -> Plan {
    let mut plan = Plan::new(1).all_of(b"ROOT", NO_PARENT);
    for level in 0..depth {
        // The tasks of a level, then its group, in which the next level is.
        let group = 3 * level;
        plan = plan.task(b"ONE-", group, 0).task(b"TWO-", group, 0);
        if level + 1 < depth {
            plan = plan.all_of(b"GRP-", group);
        }
    }
    (0..depth).fold(plan, |plan, level| {
        let task = 3 * level + 1;
        let last = if level + 1 < depth {
            task + 2
        } else {
            task + 1
        };
        chain(plan, task, last)
    })
}

/// The first task needs what is not so.
fn doomed(mut plan: Plan) -> Plan {
    let first = Plan::one_task(1).pre(0, SET);
    plan.conditions = first.conditions;
    plan.conditions[0].node = 1;
    plan
}
