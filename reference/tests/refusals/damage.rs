//! Valid plans with a wrong length or with one byte changed.

use reference::model::format::{Plan, Sizes};
use reference::tools::generate::{any_plan, plan, Shape};
use reference::tools::random::Random;

use crate::tally::Tally;

const B: &[u8] = include_bytes!("../../../samples/b.plan");
const OPTIONAL: &[u8] = include_bytes!("../../../samples/calibration-optional.plan");
const LARGE: &[u8] = include_bytes!("../../../samples/large.plan");

/// Plan B, one with an optional group, a bare task, and random plans of some hundred bytes.
fn small_plans() -> Vec<Vec<u8>> {
    let mut random = Random::new(11);
    let most = Sizes {
        nodes: 16,
        conditions: 60,
        orders: 20,
        flags: 64,
    };
    let mut plans = vec![B.to_vec(), OPTIONAL.to_vec(), Plan::one_task(64).bytes()];
    plans.extend((0..4).map(|_| any_plan(&mut random, most).bytes()));
    for flags in [1, 9, 33] {
        let sizes = Sizes { flags, ..most };
        plans.push(plan(&mut random, sizes, Shape::BUSHY).bytes());
    }
    plans
}

/// Every length up to 40 bytes too many.
pub fn lengths(tally: &mut Tally) {
    let mut plans = small_plans();
    plans.push(LARGE.to_vec());
    for plan in plans {
        let longer = [&plan[..], &plan[..24], &[0; 16]].concat();
        for len in 0..=longer.len() {
            let want = match len {
                0..16 => 1,
                _ if len == plan.len() => 0,
                _ => 3,
            };
            tally.expect(&longer[..len], want);
        }
    }
}

/// Every byte of small plans and of the large one, each with several other values.
pub fn single_bytes(tally: &mut Tally) {
    for plan in small_plans() {
        each_byte(tally, &plan, |old| {
            let bits = (0..8).map(|bit| old ^ 1 << bit);
            let near = [0, 1, 2, 255, old.wrapping_add(1), old.wrapping_sub(1)];
            near.into_iter().chain(bits).collect()
        });
    }
    each_byte(tally, B, |_| (0..=255).collect());
    each_byte(tally, LARGE, |old| {
        vec![0, 255, old.wrapping_add(1), old ^ 64]
    });
}

fn each_byte(tally: &mut Tally, plan: &[u8], values: fn(u8) -> Vec<u8>) {
    tally.expect(plan, 0);
    let mut bytes = plan.to_vec();
    for at in 0..plan.len() {
        for value in values(plan[at]) {
            bytes[at] = value;
            tally.compare(&bytes);
        }
        bytes[at] = plan[at];
    }
}
