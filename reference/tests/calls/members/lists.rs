//! Single calls on lists of every kind.

use reference::model::calls::{Answers, Call};
use reference::model::format::Plan;
use reference::model::members::Change;
use reference::tools::generate::{any_plan, dense_plan, LIMITS};
use reference::tools::random::Random;
use reference::tools::scenario::members::{any_change, children, list_of, passing};
use reference::tools::scenario::tally::Tally;
use reference::tools::scenario::Case;
use reference::tools::search::subsets;

/// Both calls with this number on this list, which may be any.
fn both(tally: &mut Tally, answers: &Answers, plan: &Plan, list: &[u8], number: usize) {
    for change in Change::each(number) {
        let case = Case {
            call: Call::Change(change),
            plan: plan.bytes(),
            blocked: Vec::new(),
            lent: list.to_vec(),
        };
        tally.compare(answers, &case);
    }
}

/// The nodes, and numbers that are none: just beyond, the greatest of a byte, one that is a node's
/// again when it is cut to 1, 2 or 4 bytes, the greatest of all.
fn numbers(random: &mut Random, plan: &Plan) -> Vec<usize> {
    let nodes = plan.nodes.len();
    let cut = [1 << 8, 1 << 16, 1 << 32].map(|beyond| beyond + random.below(nodes));
    let beyond = [nodes, nodes + 1, 127, 128, 255, usize::MAX];
    (0..nodes).chain(beyond).chain(cut).collect()
}

/// All sets of up to five children of small plans with roots of every kind, and every number.
pub fn every(tally: &mut Tally) {
    let mut random = Random::new(224);
    for nodes in 1..=8 {
        for _ in 0..20 {
            let plan = dense_plan(&mut random, nodes);
            let answers = Answers::by_rules(&plan.bytes());
            let some = children(&plan).into_iter().take(5).collect();
            for members in subsets(some).chain([Vec::new()]) {
                let list = list_of(&plan, &members);
                for number in numbers(&mut random, &plan) {
                    both(tally, &answers, &plan, &list, number);
                }
            }
        }
    }
}

/// Small plans with roots of every kind, and some of any size.
fn plans(random: &mut Random) -> Vec<Plan> {
    let small = (1..=9).map(|nodes| dense_plan(random, nodes));
    let mut plans: Vec<Plan> = small.collect();
    plans.extend((0..4).map(|_| any_plan(random, LIMITS)));
    plans
}

/// Lists of every length up to N, and some beyond, accepted but for that, or of any bytes.
pub fn lengths(tally: &mut Tally) {
    let mut random = Random::new(225);
    for plan in plans(&mut random) {
        let answers = Answers::by_rules(&plan.bytes());
        let nodes = plan.nodes.len();
        for len in (0..=nodes + 2).chain([2 * nodes, 4_096]) {
            let mut list = passing(&mut random, &plan);
            list.resize(len, random.byte());
            for list in [list, random.bytes(len)] {
                let number = any_change(&mut random, &plan).node();
                both(tally, &answers, &plan, &list, number);
            }
        }
    }
}

/// Lists with every byte at every node: 1 at the root, at its children and below them, and any
/// others.
pub fn bytes(tally: &mut Tally) {
    let mut random = Random::new(226);
    for plan in plans(&mut random) {
        let answers = Answers::by_rules(&plan.bytes());
        let list = passing(&mut random, &plan);
        let every: Vec<u8> = match plan.nodes.len() {
            0..=9 => (0..=255).collect(),
            _ => vec![1, 2, random.byte(), 255],
        };
        for node in 0..plan.nodes.len() {
            for &byte in &every {
                let mut list = list.clone();
                list[node] = byte;
                let number = any_change(&mut random, &plan).node();
                both(tally, &answers, &plan, &list, number);
            }
        }
    }
}
