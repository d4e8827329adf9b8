//! The search for a sequence by the archive and by plain Rust, beside the verdict: a table of
//! docs/costs.md.

use std::hint::black_box;

use reference::model::format::{Node, Plan, CLEAR, NO_PARENT, SET};
use reference::model::sequence::answer;
use reference::tools::archive;
use reference::tools::generate::clear::clear_plan;
use reference::tools::generate::disordered::disordered;
use reference::tools::generate::{Shape, LIMITS};
use reference::tools::random::Random;

use crate::plain;
use crate::shapes::{chain, funnel, Shaped};
use crate::timing::{grouped, least, medians};

/// Each time is the least of so many medians, taken in rounds over all plans.
const ROUNDS: usize = 8;

/// The times of the verdict and of the search by the archive, and of the search by the plain
/// program.
type Times = [f64; 3];

pub fn print() {
    let plans = plans();
    plans.iter().for_each(check);
    let round = |_| plans.iter().map(times).collect();
    let rounds: Vec<Vec<Times>> = (0..ROUNDS).map(round).collect();
    println!("| plan | N | C | K | prefixes | returns | verdict, µs | sequence, µs | plain, µs |");
    println!("|---|---|---|---|---|---|---|---|---|");
    for (at, Shaped { name, plan }) in plans.iter().enumerate() {
        let (word, prefixes) = plain::sequence(&plan.bytes());
        let returns = match word {
            24 => "24",
            _ => "a sequence",
        };
        let sizes = [
            plan.nodes.len(),
            plan.conditions.len(),
            plan.orders.len(),
            prefixes,
        ];
        let sizes = sizes.map(grouped).join(" | ");
        let least = |call: usize| least(rounds.iter().map(|round| round[at][call]));
        let times = [0, 1, 2]
            .map(|call| format!("{:.1}", least(call)))
            .join(" | ");
        println!("| {name} | {sizes} | {returns} | {times} |");
    }
}

/// All plans, the slightest first. Seven children are the most that a root may have.
fn plans() -> Vec<Shaped> {
    let mut random = Random::new(104);
    let clear = clear_plan(&mut random, LIMITS, Shape::SEVEN.without_optional());
    let shaped = |name, plan| Shaped { name, plan };
    vec![
        shaped("seven tasks, bare", Plan::flat(64, 8)),
        shaped("seven tasks, two opposed", opposed(Plan::flat(64, 6))),
        shaped(
            "seven groups, places changed",
            disordered(&mut random, &clear),
        ),
        shaped(
            "two opposed beside a bare group",
            opposed(grouping(Plan::flat(64, 121))),
        ),
        shaped(
            "two opposed beside a chain, each needs what the last left",
            opposed(grouping(chain(120, 4, 0))),
        ),
        shaped(
            "two opposed beside 80 tasks, one after them all, 39 after that one",
            opposed(grouping(funnel(80, 39))),
        ),
    ]
}

/// An all-of root with this plan as its first child, and with four tasks.
fn grouping(plan: Plan) -> Plan {
    let mut all = Plan::new(64).all_of(b"ROOT", NO_PARENT);
    // The root's parent is the highest number of a byte.
    all.nodes.extend(plan.nodes.iter().map(|node| Node {
        parent: node.parent.wrapping_add(1),
        ..*node
    }));
    all.conditions = plan.conditions;
    all.conditions
        .iter_mut()
        .for_each(|condition| condition.node += 1);
    let orders = plan.orders.iter();
    all = orders.fold(all, |all, order| {
        all.order(order.earlier + 1, order.later + 1)
    });
    (0..4).fold(all, |all, _| all.task(b"TASK", 0, 1))
}

/// The plan with two more tasks under its root, each of which leaves what the other needs the
/// opposite of. So no sequence has both, and every one that has not is tried: no plan of seven
/// children is known that has more to try.
fn opposed(plan: Plan) -> Plan {
    (0..2).fold(plan, |plan, _| {
        plan.task(b"ONCE", 0, 1).pre(63, CLEAR).post(63, SET)
    })
}

/// What is timed must be right. That there is no sequence among 5,040 the reference would take long
/// to say of a large plan: there 24 must be what the plain program returns, which a test compares
/// with it.
fn check(Shaped { name, plan }: &Shaped) {
    let bytes = plan.bytes();
    let (by_plain, _) = plain::sequence(&bytes);
    let want = match by_plain {
        24 => 24,
        _ => answer(&bytes),
    };
    let found = archive::sequence(&mut bytes.clone());
    assert_eq!([found, by_plain], [want; 2], "{name}");
    assert!(want > 23, "{name}");
}

fn times(Shaped { plan, .. }: &Shaped) -> Times {
    let bytes = plan.bytes();
    let (mut one, mut other) = (bytes.clone(), bytes.clone());
    medians([
        &mut || archive::verdict(black_box(&mut one), black_box(&mut [])),
        &mut || archive::sequence(black_box(&mut other)) as u32,
        &mut || plain::sequence(black_box(&bytes)).0 as u32,
    ])
}
