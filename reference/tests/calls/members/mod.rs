//! Members of the root: lists of include and exclude calls from nobody, and single calls on lists of
//! every kind.

pub mod lists;
pub mod rules;

use reference::model::calls::Answers;
use reference::model::format::{Plan, Sizes};
use reference::model::members::Change;
use reference::tools::generate::clear::{clear_plan, shaken_plan};
use reference::tools::generate::{any_plan, dense_plan, plan, LIMITS, SHAPES};
use reference::tools::random::Random;
use reference::tools::scenario::members::{changes, children, replay, Turn};
use reference::tools::scenario::tally::Tally;

use crate::sequences::{all_of_kinds, with_orders};

/// Calls drawn for this plan, from nobody, with up to three bytes of any kind after the list.
fn replayed(tally: &mut Tally, random: &mut Random, plan: &Plan, most: usize) -> Vec<Turn> {
    let bytes = plan.bytes();
    let answers = match plan.nodes.len() {
        0..=6 => Answers::by_runs(&bytes),
        _ => Answers::by_rules(&bytes),
    };
    let calls = changes(random, plan, most);
    let extra = random.below(4);
    let later = random.bytes(extra);
    replay(tally, &answers, plan, &calls, &later)
}

/// Plans of up to 12 nodes with roots of every kind, the smallest by runs.
pub fn small(tally: &mut Tally) {
    let mut random = Random::new(221);
    for nodes in 1..=12 {
        for _ in 0..200 {
            let plan = dense_plan(&mut random, nodes);
            replayed(tally, &mut random, &plan, 2 * nodes);
        }
    }
}

/// Every plan of three tasks and one flag, clear at the start and set, or of two children of all
/// kinds, with every set of orders: every set of members.
pub fn every(tally: &mut Tally) {
    for (kinds, count) in [(1, 3), (3, 2)] {
        for bare in all_of_kinds(kinds, count) {
            for orders in 0..1 << (count * (count - 1) / 2) {
                let ordered = with_orders(&bare, orders);
                for plan in [ordered.clone(), ordered.starting_with(0)] {
                    let answers = Answers::by_rules(&plan.bytes());
                    replay(tally, &answers, &plan, &through_all_sets(&plan), &[]);
                }
            }
        }
    }
}

/// Calls after which the members are each set of the root's children once, nobody last: a Gray code.
fn through_all_sets(plan: &Plan) -> Vec<Change> {
    let children = children(plan);
    let last = children.len() - 1;
    let sets = 1..=1_usize << children.len();
    let call = |number: usize| {
        let place = (number.trailing_zeros() as usize).min(last);
        let is_member = number >> (place + 1) & 1 == 1;
        Change::each(children[place])[usize::from(is_member)]
    };
    sets.map(call).collect()
}

/// Plans of 128 nodes and 64 flags, and of any size up to that.
pub fn large(tally: &mut Tally) {
    let mut random = Random::new(223);
    for shape in SHAPES {
        for draw in [clear_plan, shaken_plan, plan] {
            for conditions in [100, 400, 1_024] {
                let sizes = Sizes {
                    conditions,
                    ..LIMITS
                };
                let plan = draw(&mut random, sizes, shape);
                replayed(tally, &mut random, &plan, 10);
            }
        }
    }
    for _ in 0..40 {
        let plan = any_plan(&mut random, LIMITS);
        replayed(tally, &mut random, &plan, 10);
    }
}
