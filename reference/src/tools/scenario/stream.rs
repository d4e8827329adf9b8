//! An endless stream of plans of all sizes, whole and damaged, and every call on each.

use super::blocked::{any_blocked, calls};
use super::cases::cases;
use super::generated::{any_recipe, lengths, passing};
use super::lists::{list, long_list};
use super::members;
use super::merged::Pair;
use super::tally::Tally;
use super::Case;
use crate::model::blocked::Remaining;
use crate::model::calls::{Answers, Call};
use crate::model::format::{Plan, Sizes};
use crate::model::rules::accept;
use crate::tools::edit::edit;
use crate::tools::generate::clear::{clear_plan, shaken_plan};
use crate::tools::generate::pairs::partner;
use crate::tools::generate::{any_plan, dense_plan, plan, LIMITS, SHAPES};
use crate::tools::random::Random;

/// How often a plan is damaged.
#[derive(Clone, Copy, Debug, PartialEq, Eq)]
pub enum Damage {
    Sometimes,
    Mostly,
}

/// A random plan as bytes, which may be refused.
pub fn any_bytes(random: &mut Random, damage: Damage) -> Vec<u8> {
    let mut plan = any_size(random);
    let whole = match damage {
        Damage::Sometimes => 3,
        Damage::Mostly => 1,
    };
    match random.below(4 + whole) {
        0 | 1 => {
            for _ in 0..random.within(1, 3) {
                edit(&mut plan, random);
            }
            plan.bytes()
        }
        2 => {
            let mut bytes = plan.bytes();
            let at = random.below(bytes.len());
            bytes[at] = random.byte();
            bytes
        }
        3 => {
            let mut bytes = plan.bytes();
            let len = random.below(bytes.len() + 20);
            bytes.resize(len, random.byte());
            bytes
        }
        _ => plan.bytes(),
    }
}

/// A valid plan: of a few nodes, of some, or of any number up to 128; or a generated one.
fn any_size(random: &mut Random) -> Plan {
    let nodes = random.within(1, LIMITS.nodes);
    let sizes = Sizes {
        nodes: random.pick(&[nodes, LIMITS.nodes]),
        conditions: random.within(0, LIMITS.conditions),
        orders: random.within(0, LIMITS.orders),
        flags: random.within(1, LIMITS.flags),
    };
    let few = Sizes {
        nodes: 30,
        conditions: 60,
        orders: 30,
        flags: 64,
    };
    let shape = random.pick(&SHAPES);
    match random.below(9) {
        0..=2 => dense_plan(random, 1 + nodes % 12),
        3 | 4 => any_plan(random, few),
        5 => plan(random, sizes, shape),
        6 => clear_plan(random, sizes, shape),
        7 => shaken_plan(random, sizes, shape),
        _ => passing(random).plan().expect("a recipe that passes"),
    }
}

/// Every call on these bytes with nothing blocked, and with a list of blocked nodes of any kind;
/// the call that takes no plan, and the one that takes another plan too.
pub fn every_call(tally: &mut Tally, random: &mut Random, bytes: &[u8]) {
    generate(tally, random);
    tally.sequence(bytes);
    merge(tally, random, bytes);
    with_list(tally, random, bytes, &[]);
    let blocked = match accept(bytes) {
        Ok(plan) => {
            come_and_go(tally, random, &plan);
            any_blocked(random, &plan)
        }
        Err(_) => vec![random.below(129)],
    };
    if !blocked.is_empty() {
        with_list(tally, random, bytes, &blocked);
    }
}

/// Generate calls by one recipe of any kind, with outputs of lengths around the limit.
fn generate(tally: &mut Tally, random: &mut Random) {
    let recipe = any_recipe(random);
    for len in lengths(recipe) {
        tally.generate(recipe, &random.bytes(len));
    }
}

/// Merge calls on these bytes, first or second, and another plan or its damaged bytes, and on these
/// bytes twice, with outputs of lengths around the limit.
fn merge(tally: &mut Tally, random: &mut Random, bytes: &[u8]) {
    let other = match (accept(bytes), random.below(4)) {
        (Ok(plan), 1..) => partner(random, &plan).bytes(),
        _ => any_bytes(random, Damage::Mostly),
    };
    let mut plans = [bytes.to_vec(), other];
    random.shuffle(&mut plans);
    for pair in [plans, [bytes.to_vec(), bytes.to_vec()]].map(Pair::new) {
        for len in pair.lengths() {
            tally.merge(&pair, &random.bytes(len));
        }
    }
}

/// Include and exclude calls from nobody.
fn come_and_go(tally: &mut Tally, random: &mut Random, plan: &Plan) {
    let answers = Answers::by_rules(&plan.bytes());
    let calls = members::changes(random, plan, 6);
    members::replay(tally, &answers, plan, &calls, &random.bytes(2));
}

/// Every call with this list; on an accepted plan every node's summary and, if the list is accepted
/// too, a list of calls.
fn with_list(tally: &mut Tally, random: &mut Random, bytes: &[u8], blocked: &[usize]) {
    let accepted = accept(bytes);
    let answers = match &accepted {
        Ok(plan) if plan.nodes.len() <= 8 && plan.flags <= 2 => Answers::by_runs(bytes),
        _ => Answers::by_rules(bytes),
    };
    let answers = answers.blocking(blocked);
    for case in cases(random, bytes, blocked) {
        tally.compare(&answers, &case);
    }
    let Ok(plan) = accepted else { return };
    every_summary(tally, random, &plan, &answers);
    if let Ok(remaining) = Remaining::new(&plan, blocked) {
        replay(tally, random, &remaining, &answers);
    }
}

fn every_summary(tally: &mut Tally, random: &mut Random, plan: &Plan, answers: &Answers) {
    for node in 0..plan.nodes.len() {
        let case = Case {
            call: Call::Summary(node),
            plan: plan.bytes(),
            blocked: answers.blocked().to_vec(),
            lent: random.bytes(1_024),
        };
        tally.compare(answers, &case);
    }
}

/// Fresh and then a list of calls, each with the state as the last one left it.
fn replay(tally: &mut Tally, random: &mut Random, plan: &Remaining, answers: &Answers) {
    let drawn = match random.below(2) {
        0 => long_list(random, &plan.plan),
        _ => list(random, &plan.plan, 60),
    };
    let mut list = vec![Call::Fresh];
    list.extend(calls(random, plan, drawn));
    tally.replay(answers, &plan.whole.bytes(), &list, random.bytes(400));
}
