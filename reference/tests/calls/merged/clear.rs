//! When a merged plan is CLEAR: every two tasks, plans of two tasks beside one, large CLEAR plans.

use std::collections::BTreeMap;

use reference::model::format::{Plan, Sizes, ALL_OF, ANY_OF, CLEAR, NO_PARENT, OPTIONAL, SET};
use reference::tools::generate::pairs::clear_pair;
use reference::tools::generate::LIMITS;
use reference::tools::random::Random;
use reference::tools::scenario::merged::{Judged, Pair};
use reference::tools::scenario::tally::Tally;

use super::{merged, same_verdict};

/// What a task may say of flag 0: its need, its hold and its leaving, of which the second is never
/// without the third.
type Said = [Option<u16>; 3];

/// All 21.
fn all_said() -> Vec<Said> {
    let signs = [None, Some(CLEAR), Some(SET)];
    let all = signs
        .iter()
        .flat_map(|&need| signs.map(|hold| [need, hold]))
        .flat_map(|[need, hold]| signs.map(|leaving| [need, hold, leaving]));
    all.filter(|[_, hold, leaving]| hold.is_none() || leaving.is_some())
        .collect()
}

/// Adds the conditions of the node added last.
fn saying(plan: Plan, said: Said) -> Plan {
    let places = (0..).zip(said);
    places.fold(plan, |plan, (place, sign)| match sign {
        Some(sign) => plan.condition(place, 0, sign),
        None => plan,
    })
}

/// One flag, set at the start or not.
fn starting(start: u8) -> Plan {
    let mut plan = Plan::new(1);
    plan.start[0] = start;
    plan
}

fn lone(start: u8, said: Said) -> Plan {
    saying(starting(start).task(b"LONE", NO_PARENT, 0), said)
}

/// A group of two tasks, of this kind and in order or not.
fn two(start: u8, kind: u8, ordered: bool, said: [Said; 2]) -> Plan {
    let group = starting(start).node(b"TWO-", NO_PARENT, kind, 0);
    let task = |plan: Plan, said| saying(plan.task(b"TASK", 0, 0), said);
    let mut plan = said.into_iter().fold(group, task);
    if ordered {
        plan = plan.order(1, 2);
    }
    plan
}

/// A lone task, or two in a group of any kind.
pub fn any_two(random: &mut Random) -> Plan {
    let all = all_said();
    let said = [(); 2].map(|()| random.pick(&all));
    let start = random.pick(&[0, 1]);
    match random.below(8) {
        0 | 1 => lone(start, said[0]),
        2 => two(start, ANY_OF, false, said),
        3 => two(start, OPTIONAL, false, said),
        4 => two(start, ALL_OF, false, said),
        _ => two(start, ALL_OF, true, said),
    }
}

/// Every two tasks that speak of one flag, as two plans, set at the start or not.
pub fn every(tally: &mut Tally) {
    let mut random = Random::new(266);
    for start in [0, 1] {
        for one in all_said() {
            for other in all_said() {
                let pair = Pair::of(&[lone(start, one), lone(start, other)]);
                same_verdict(tally, &mut random, &pair);
            }
        }
    }
}

/// Every two tasks, in order and in a group of some kind without one, beside every lone task.
pub fn beside(tally: &mut Tally) {
    let mut random = Random::new(267);
    let mut judged = Vec::new();
    for start in [0, 1] {
        for one in all_said() {
            for other in all_said() {
                let kind = random.pick(&[ALL_OF, ANY_OF, OPTIONAL]);
                let in_order = two(start, ALL_OF, true, [one, other]);
                let group = two(start, kind, false, [one, other]);
                for plan in [in_order, group] {
                    for said in all_said() {
                        let mut plans = [plan.clone(), lone(start, said)];
                        random.shuffle(&mut plans);
                        let pair = Pair::of(&plans);
                        merged(tally, &mut random, &pair);
                        judged.push(pair.judged());
                    }
                }
            }
        }
    }
    every_reason("two tasks beside one", judged, 100);
}

/// CLEAR plans of any size that have no flag in common, or one to three.
pub fn large(tally: &mut Tally) {
    let mut random = Random::new(268);
    let mut judged = Vec::new();
    for at in 0..240 {
        let nodes = random.within(3, 60);
        let nodes = random.pick(&[nodes, nodes, LIMITS.nodes]);
        let room = Sizes { nodes, ..LIMITS };
        let pair = Pair::of(&clear_pair(&mut random, room, at % 4));
        merged(tally, &mut random, &pair);
        judged.push(pair.judged());
    }
    let counts = counted(judged);
    println!("merged, large and CLEAR: {counts:?}");
    for collide in [false, true] {
        let clear = [true; 2];
        assert!(counts[&Judged { clear, collide }] >= 60);
    }
}

/// Each reason is met so often, alone and with others.
fn every_reason(name: &str, judged: Vec<Judged>, least: usize) {
    let counts = counted(judged);
    println!("merged, {name}: {counts:?}");
    assert_eq!(counts.len(), 8);
    assert!(counts.values().all(|&count| count >= least));
}

/// How often each is among these.
fn counted(judged: Vec<Judged>) -> BTreeMap<Judged, usize> {
    let mut counts = BTreeMap::new();
    for judged in judged {
        *counts.entry(judged).or_default() += 1;
    }
    counts
}
