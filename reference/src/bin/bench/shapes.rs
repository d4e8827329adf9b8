//! Plans of 128 nodes and 64 flags of many shapes, from the slightest to the worst that are known.

use reference::model::format::{Plan, Sizes, CLEAR, NO_PARENT, SET};
use reference::tools::generate::{plan, Shape, LIMITS};
use reference::tools::random::Random;

/// A plan and what is said of it in the table.
pub struct Shaped {
    pub name: &'static str,
    pub plan: Plan,
}

/// All shapes, the slightest first.
pub fn shapes() -> Vec<Shaped> {
    let mut random = Random::new(102);
    let mut all = nested(&mut random);
    all.extend(flat(&mut random));
    all.extend(worst());
    all.extend(optional(&mut random));
    all
}

fn shaped(name: &'static str, plan: Plan) -> Shaped {
    Shaped { name, plan }
}

fn drawn(random: &mut Random, conditions: usize, orders: usize, shape: Shape) -> Plan {
    let sizes = Sizes {
        conditions,
        orders,
        ..LIMITS
    };
    plan(random, sizes, shape)
}

/// Random plans of groups in groups.
fn nested(random: &mut Random) -> Vec<Shaped> {
    let shapes = [
        ("each node under the one before it", Shape::CHAIN),
        ("deep, random", Shape::DEEP),
        ("even, random", Shape::EVEN),
        ("bushy, random", Shape::BUSHY),
    ];
    let draw = |(name, shape): (_, Shape)| {
        let shape = shape.without_optional();
        let plan = drawn(random, LIMITS.conditions, LIMITS.orders, shape);
        shaped(name, plan)
    };
    shapes.into_iter().map(draw).collect()
}

/// One group of 127 tasks.
fn flat(random: &mut Random) -> Vec<Shaped> {
    let flat = Shape::FLAT.without_optional();
    vec![
        shaped("flat, bare, no order", Plan::flat(64, 128)),
        shaped("flat, one chain, bare", chain(127, 0, 0)),
        shaped(
            "flat, 1,024 random conditions, no order",
            drawn(random, 1_024, 0, flat),
        ),
        shaped(
            "the same with 512 random orders",
            drawn(random, 1_024, 512, flat),
        ),
    ]
}

/// One group of 127 tasks, made so that the search for clashes has much to do.
fn worst() -> Vec<Shaped> {
    vec![
        shaped(
            "flat, no order, 64 clashes, all with the last child",
            needed_by_last(),
        ),
        shaped(
            "flat, no order, 63 flags left opposite ways",
            unordered(chain(126, 0, 63)),
        ),
        shaped(
            "flat, one chain, each needs what the last left",
            chain(127, 4, 0),
        ),
        shaped(
            "such a chain and 122 clashes with a last child",
            chain(126, 3, 61),
        ),
        shaped(
            "flat, 84 tasks, one after them all, 42 after that one",
            funnel(84, 42),
        ),
    ]
}

/// An all-of root with so many tasks in a chain.
///
/// Each needs the `toggled` flags as the one before left them. Most pairs of tasks share a literal
/// that the one leaves and the other needs the opposite of, and only what stands between shows that
/// it is left otherwise by then.
///
/// With `broken` flags a last task, unordered, needs them clear and holds them set, and for each of
/// their literals one task of the chain leaves the opposite: the search finds one clash at a time,
/// each at the last child.
pub fn chain(tasks: usize, toggled: u16, broken: u16) -> Plan {
    let mut plan = Plan::new(64).all_of(b"ROOT", NO_PARENT);
    // A literal broken costs a condition of a task in the chain, a flag three of the last task.
    let room = LIMITS.conditions - usize::from(2 * broken + 3 * broken);
    let mut toggles = 0;
    for task in 0..tasks {
        plan = plan.task(b"TASK", 0, 1);
        for flag in 0..toggled {
            let sign = |task: usize| (task >> flag & 1) as u16;
            if toggles + 2 <= room {
                plan = plan.pre(flag, sign(task)).post(flag, sign(task + 1));
                toggles += 2;
            }
        }
        if task < usize::from(2 * broken) {
            plan = plan.post(63 - task as u16 / 2, task as u16 % 2);
        }
        if task > 0 {
            plan = plan.order(task as u8, task as u8 + 1);
        }
    }
    if broken > 0 {
        plan = plan.task(b"LAST", 0, 1);
        for flag in 64 - broken..64 {
            plan = plan.pre(flag, CLEAR).inc(flag, SET).post(flag, CLEAR);
        }
    }
    plan.conditions.sort_by_key(|c| (c.node, c.value));
    plan
}

/// An all-of root with a task for each flag that leaves it set, bare ones, and a last task that
/// needs all flags clear: the search finds one clash at a time, each at the last child.
fn needed_by_last() -> Plan {
    let root = Plan::new(64).all_of(b"ROOT", NO_PARENT);
    let plan = (0..126).fold(root, |plan, task| match task {
        0..=63 => plan.task(b"SETS", 0, 1).post(task, SET),
        _ => plan.task(b"BARE", 0, 1),
    });
    (0..64).fold(plan.task(b"LAST", 0, 1), |plan, flag| plan.pre(flag, CLEAR))
}

/// An all-of root with `before` unordered tasks, one after all of them, and `after` unordered tasks
/// after that one, which puts right what the first leave and the last need.
pub fn funnel(before: u8, after: u8) -> Plan {
    let mut plan = Plan::new(64).all_of(b"ROOT", NO_PARENT);
    for _ in 0..before {
        plan = plan.task(b"FIRS", 0, 1).post(1, CLEAR).post(0, SET);
    }
    plan = plan.task(b"MIDD", 0, 1).post(0, CLEAR).post(1, SET);
    for _ in 0..after {
        plan = plan.task(b"LAST", 0, 1).pre(0, CLEAR).pre(1, SET);
    }
    let middle = before + 1;
    plan = (1..middle).fold(plan, |plan, first| plan.order(first, middle));
    (middle + 1..=middle + after).fold(plan, |plan, last| plan.order(middle, last))
}

fn unordered(mut plan: Plan) -> Plan {
    plan.orders.clear();
    plan
}

/// With optional groups.
fn optional(random: &mut Random) -> Vec<Shaped> {
    vec![
        shaped(
            "even, random, some groups optional",
            drawn(random, LIMITS.conditions, LIMITS.orders, Shape::EVEN),
        ),
        shaped("127 optional groups, each in the one before it", inside()),
        shaped(
            "63 optional groups of one task in one chain, and a task",
            droppable(),
        ),
    ]
}

/// Optional groups one inside the other, in the last of them a task.
fn inside() -> Plan {
    let group = |plan: Plan, node: u8| plan.optional(b"DROP", node.wrapping_sub(1));
    (0..127).fold(Plan::new(64), group).task(b"TASK", 126, 1)
}

/// An all-of root with optional groups of one task each, one after another, and a last task.
fn droppable() -> Plan {
    let mut plan = Plan::new(64).all_of(b"ROOT", NO_PARENT);
    for group in (1..127).step_by(2) {
        plan = plan.optional(b"DROP", 0).task(b"TASK", group, 1);
    }
    plan = plan.task(b"LAST", 0, 1);
    let groups = (1..125).step_by(2);
    groups.fold(plan, |plan, group| plan.order(group, group + 2))
}
