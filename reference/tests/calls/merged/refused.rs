//! Two plans of which the one, the other or both are damaged.

use reference::model::format::Sizes;
use reference::model::rules::refusal;
use reference::tools::edit::edit;
use reference::tools::generate::pairs::agree;
use reference::tools::generate::{any_plan, dense_plan};
use reference::tools::random::Random;
use reference::tools::scenario::merged::Pair;
use reference::tools::scenario::stream::{any_bytes, Damage};
use reference::tools::scenario::tally::Tally;

const B: &[u8] = include_bytes!("../../../../samples/b.plan");

/// Merge calls with outputs of lengths around the limit. The first plan's refusal goes before the
/// second's, and both before all else. Returns both.
fn check(tally: &mut Tally, random: &mut Random, plans: [Vec<u8>; 2]) -> [u32; 2] {
    let pair = Pair::new(plans);
    let refusals = pair.plans.each_ref().map(|plan| refusal(plan));
    let first = refusals.into_iter().find(|&number| number != 0);
    for len in pair.lengths() {
        let returned = tally.merge(&pair, &random.bytes(len)).returned;
        assert_eq!((1..=14).contains(&returned).then_some(returned), first);
    }
    refusals
}

/// Small plans with up to three edits.
pub fn damaged(tally: &mut Tally) {
    let mut random = Random::new(271);
    let few = Sizes {
        nodes: 8,
        conditions: 20,
        orders: 8,
        flags: 64,
    };
    let mut met = [[0; 15]; 2];
    let mut both = 0;
    for _ in 0..4_000 {
        let mut plans = [(); 2].map(|()| match random.below(2) {
            0 => dense_plan(&mut random, 5),
            _ => any_plan(&mut random, few),
        });
        if random.below(8) > 0 {
            let [one, other] = &mut plans;
            agree(one, other);
        }
        let edits = random.pick(&[[1, 0], [0, 1], [2, 1], [1, 3]]);
        for (plan, edits) in plans.iter_mut().zip(edits) {
            for _ in 0..edits {
                edit(plan, &mut random);
            }
        }
        let plans = plans.map(|plan| plan.bytes());
        let refusals = check(tally, &mut random, plans);
        for (met, number) in met.iter_mut().zip(refusals) {
            met[number as usize] += 1;
        }
        both += usize::from(refusals[0] != 0 && refusals[1] != 0 && refusals[0] != refusals[1]);
    }
    println!("merged, refusals from 0 to 14 of the first and of the second: {met:?}");
    println!("merged, both refused for different causes: {both}");
    let mut counts = met.iter().flat_map(|met| &met[4..]);
    assert!(counts.all(|&count| count >= 5));
    assert!(both >= 300);
}

/// B beside itself, either of them cut at any length, or with any byte changed.
pub fn bytes(tally: &mut Tally) {
    let mut random = Random::new(272);
    for at in 0..B.len() {
        let mut changed = B.to_vec();
        changed[at] = random.byte();
        for other in [B[..at].to_vec(), changed] {
            check(tally, &mut random, [B.to_vec(), other.clone()]);
            check(tally, &mut random, [other.clone(), B.to_vec()]);
            check(tally, &mut random, [other.clone(), other]);
        }
    }
}

/// Bytes of plans of all sizes, damaged or not.
pub fn any(tally: &mut Tally) {
    let mut random = Random::new(273);
    for _ in 0..400 {
        let plans = [(); 2].map(|()| any_bytes(&mut random, Damage::Sometimes));
        check(tally, &mut random, plans);
    }
}
