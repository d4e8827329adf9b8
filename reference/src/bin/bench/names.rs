//! The time of rule 5 on plans of the greatest size, by the archive and by plain Rust: the table of
//! docs/benchmark.md, 'Names'.

use std::hint::black_box;

use reference::model::format::Plan;
use reference::tools::archive;
use reference::tools::generate::{plan, Shape, LIMITS};
use reference::tools::random::Random;

use crate::plain;
use crate::timing::{least, medians};

/// Each time is the least of so many medians.
const ROUNDS: usize = 8;

/// So many plans in turn have more names than the processor learns the branches of.
const MANY: usize = 1_024;

pub fn print() {
    let mut random = Random::new(103);
    let drawn = plan(&mut random, LIMITS, Shape::FLAT.without_optional());
    let many: Vec<Plan> = (0..MANY).map(|_| renamed(&drawn, &mut random)).collect();
    let rows = [
        ("letters", vec![letters(&drawn)]),
        ("drawn", vec![drawn]),
        ("drawn, another plan each time", many),
    ];
    println!("| names | archive, ns | plain, ns |");
    println!("|---|---|---|");
    for (names, plans) in rows {
        let [archive, plain] = rule_5(&plans);
        println!("| {names} | {archive:.0} | {plain:.0} |");
    }
}

fn letters(plan: &Plan) -> Plan {
    let mut plan = plan.clone();
    plan.nodes.iter_mut().for_each(|node| node.name = *b"NAME");
    plan
}

/// The same plan with the characters of its names in another order.
fn renamed(plan: &Plan, random: &mut Random) -> Plan {
    let mut plan = plan.clone();
    let mut characters: Vec<u8> = plan.nodes.iter().flat_map(|node| node.name).collect();
    random.shuffle(&mut characters);
    for (node, name) in plan.nodes.iter_mut().zip(characters.as_chunks().0) {
        node.name = *name;
    }
    plan
}

/// Nanoseconds for all characters but one: what a verdict takes that is refused for the last
/// character, less what one takes that is refused for the first.
fn rule_5(plans: &[Plan]) -> [f64; 2] {
    let refused_at = |node: usize, place: usize| {
        let refused = |plan: &Plan| {
            let mut plan = plan.clone();
            plan.nodes[node].name[place] = b'_';
            plan.bytes()
        };
        plans.iter().map(refused).collect::<Vec<_>>()
    };
    let (first, last) = (refused_at(0, 0), refused_at(LIMITS.nodes - 1, 3));
    let rounds: Vec<[f64; 4]> = (0..ROUNDS).map(|_| verdicts(&first, &last)).collect();
    let least = |at: usize| least(rounds.iter().map(|round| round[at]));
    [least(1) - least(0), least(3) - least(2)].map(|difference| difference * 1_000.0)
}

/// The times of both refusals by the archive, then by the plain program.
fn verdicts(first: &[Vec<u8>], last: &[Vec<u8>]) -> [f64; 4] {
    let by_archive = |plan: &mut [u8]| archive::verdict(black_box(plan), black_box(&mut []));
    let by_plain = |plan: &mut [u8]| plain::verdict(black_box(plan));
    medians([
        &mut in_turn(first, by_archive),
        &mut in_turn(last, by_archive),
        &mut in_turn(first, by_plain),
        &mut in_turn(last, by_plain),
    ])
}

/// Asks of one plan after another, and of the first again after the last. All are refused.
fn in_turn(plans: &[Vec<u8>], verdict: impl Fn(&mut [u8]) -> u32) -> impl FnMut() -> u32 {
    let mut plans = plans.to_vec();
    let mut at = 0;
    move || {
        at = (at + 1) % plans.len();
        let refusal = verdict(&mut plans[at]);
        assert_eq!(refusal, 5);
        refusal
    }
}
