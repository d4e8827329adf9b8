//! Every call on damaged plans: refused ones may change nothing.

use reference::model::calls::Answers;
use reference::model::format::{Plan, Sizes};
use reference::tools::edit::edit;
use reference::tools::generate::{any_plan, dense_plan, LIMITS};
use reference::tools::random::Random;
use reference::tools::scenario::cases::cases;
use reference::tools::scenario::tally::Tally;

const B: &[u8] = include_bytes!("../../../samples/b.plan");
const OPTIONAL: &[u8] = include_bytes!("../../../samples/calibration-optional.plan");
const LARGE: &[u8] = include_bytes!("../../../samples/large.plan");

/// Every call on these bytes.
fn every_call(tally: &mut Tally, random: &mut Random, plan: &[u8]) {
    let answers = Answers::by_rules(plan);
    for case in cases(random, plan, &[]) {
        tally.compare(&answers, &case);
    }
    tally.sequence(plan);
}

/// B, and a plan with an optional group, with any one byte changed or cut off there; the largest
/// plan at some of its bytes.
pub fn bytes(tally: &mut Tally) {
    let mut random = Random::new(81);
    for (plan, step) in [(B, 1), (OPTIONAL, 1), (LARGE, 89)] {
        for at in (0..plan.len()).step_by(step) {
            let mut bytes = plan.to_vec();
            for value in [0, 255, random.byte(), bytes[at] ^ 64] {
                bytes[at] = value;
                every_call(tally, &mut random, &bytes);
            }
            every_call(tally, &mut random, &plan[..at]);
        }
        for len in (0..16).chain([plan.len() - 1]) {
            every_call(tally, &mut random, &plan[..len]);
        }
        every_call(tally, &mut random, &[plan, &[0]].concat());
    }
}

/// One to three edits of small and large plans, so that every refusal from 4 to 14 is met.
pub fn fields(tally: &mut Tally) {
    let mut random = Random::new(82);
    let small = Sizes {
        nodes: 12,
        conditions: 30,
        orders: 12,
        flags: 64,
    };
    let mut plans: Vec<Plan> = Vec::new();
    for nodes in 1..=10 {
        plans.extend((0..30).map(|_| dense_plan(&mut random, nodes)));
    }
    plans.extend((0..1_000).map(|_| any_plan(&mut random, small)));
    plans.extend((0..10).map(|_| any_plan(&mut random, LIMITS)));
    for valid in plans {
        for _ in 0..8 {
            let mut plan = valid.clone();
            for _ in 0..random.within(1, 3) {
                edit(&mut plan, &mut random);
            }
            every_call(tally, &mut random, &plan.bytes());
        }
    }
}
