//! Random bytes, random valid plans and random edits of them.

use reference::model::format::{Sizes, HEAD};
use reference::tools::edit::edit;
use reference::tools::generate::{any_plan, plan, LIMITS, SHAPES};
use reference::tools::random::Random;

use crate::tally::Tally;

/// Sizes of plans that are checked quickly and are still rich enough to meet every rule.
const SMALL: Sizes = Sizes {
    nodes: 12,
    conditions: 24,
    orders: 12,
    flags: 12,
};

pub fn bytes(tally: &mut Tally) {
    let mut random = Random::new(21);
    for len in (0..600).chain([1_000, 5_135, 5_136, 5_137, 10_000]) {
        for _ in 0..10 {
            tally.compare(&random.bytes(len));
        }
    }
    for most in [1, 4, 255] {
        for _ in 0..10_000 {
            tally.compare(&right_length(&mut random, most));
        }
    }
}

/// Random sizes, some beyond their limits, and a random body of the length that they give. No
/// byte of the body is above `most`; half of the inputs have good start flags and names.
fn right_length(random: &mut Random, most: usize) -> Vec<u8> {
    let mut out = Vec::new();
    for limit in [8, 12, 6, 64] {
        let beyond = random.below(40) == 0;
        let size = if beyond {
            2_000
        } else {
            random.within(1, limit)
        };
        out.extend((size as u16).to_le_bytes());
    }
    let sizes = Sizes::read(&out);
    let body = (8..sizes.plan_len()).map(|_| random.within(0, most) as u8);
    out.extend(body);
    if random.below(2) == 0 {
        out[8..HEAD].fill(0);
        out[HEAD..HEAD + 4 * sizes.nodes].fill(b'-');
    }
    out
}

pub fn valid(tally: &mut Tally) {
    let mut random = Random::new(22);
    for _ in 0..5_000 {
        tally.expect(&any_plan(&mut random, SMALL).bytes(), 0);
    }
    for _ in 0..500 {
        tally.expect(&any_plan(&mut random, LIMITS).bytes(), 0);
    }
    for shape in SHAPES {
        for _ in 0..20 {
            tally.expect(&plan(&mut random, LIMITS, shape).bytes(), 0);
        }
    }
}

/// One to three edits at a time.
pub fn edited(tally: &mut Tally) {
    let mut random = Random::new(23);
    for (most, plans) in [(SMALL, 10_000), (LIMITS, 100)] {
        for _ in 0..plans {
            let valid = any_plan(&mut random, most);
            for _ in 0..8 {
                let mut plan = valid.clone();
                for _ in 0..random.within(1, 3) {
                    edit(&mut plan, &mut random);
                }
                tally.compare(&plan.bytes());
            }
        }
    }
    let met = tally.counts();
    assert!((4..15).all(|refusal| met[refusal] > 200), "{met:?}");
}
