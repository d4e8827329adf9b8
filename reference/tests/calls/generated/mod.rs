//! Generated plans: by recipes of every size and of many seeds, with outputs of every length.

pub mod rules;

use reference::model::calls::{Answers, Call};
use reference::model::generated::{Recipe, MOST};
use reference::model::listing::LISTING_LEN;
use reference::tools::random::Random;
use reference::tools::scenario::generated::{any_recipe, any_seed, lengths, passing};
use reference::tools::scenario::tally::Tally;
use reference::tools::scenario::Case;

/// The longest plan that the sizes permit: 121 nodes, 120 conditions, 59 orders.
const LONGEST: usize = 16 + 8 * 121 + 3 * 120 + 2 * 59;

/// The plan by an accepted recipe, in an output that is long enough for any.
fn generated(tally: &mut Tally, random: &mut Random, recipe: Recipe) -> Vec<u8> {
    let written = tally.generate(recipe, &random.bytes(LONGEST));
    let plan = written.plan().expect("an accepted recipe");
    plan.to_vec()
}

/// The plan is accepted, and its verdict and listing are those of the reference.
fn judged(tally: &mut Tally, random: &mut Random, plan: &[u8]) {
    let answers = match plan.len() {
        0..=100 => Answers::by_runs(plan),
        _ => Answers::by_rules(plan),
    };
    let mut returned = |call, len| {
        let case = Case {
            call,
            plan: plan.to_vec(),
            blocked: Vec::new(),
            lent: random.bytes(len),
        };
        tally.compare(&answers, &case).returned
    };
    assert_eq!(returned(Call::Refusal, 8), 0);
    assert!(returned(Call::Verdict, 8) >= 128);
    assert!(returned(Call::Listing, LISTING_LEN) >= 256);
}

/// By each two sizes that pass and a few seeds: what is generated is accepted and judged.
pub fn every(tally: &mut Tally) {
    let mut random = Random::new(241);
    for groups in 1..=MOST {
        for tasks in groups..=MOST {
            for seed in [(); 3].map(|()| any_seed(&mut random)) {
                let recipe = Recipe::new(seed, groups, tasks);
                let plan = generated(tally, &mut random, recipe);
                judged(tally, &mut random, &plan);
            }
        }
    }
}

/// By each two sizes up to 62, and by such as are far beyond, some of them right again when they
/// are cut to 1, 2 or 4 bytes.
pub fn sizes(tally: &mut Tally) {
    let mut random = Random::new(242);
    let cut = [1 << 8, 1 << 16, 1 << 32].map(|beyond| beyond + random.within(1, MOST));
    let far = [127, 128, 255, 256, 1 << 31, 1 << 63, usize::MAX];
    let numbers: Vec<usize> = (0..=MOST + 2).chain(far).chain(cut).collect();
    for &groups in &numbers {
        for &tasks in &numbers {
            let recipe = Recipe::new(any_seed(&mut random), groups, tasks);
            for len in [0, LONGEST] {
                tally.generate(recipe, &random.bytes(len));
            }
        }
    }
}

/// Outputs of every length up to that of the plan, and some beyond.
pub fn outputs(tally: &mut Tally) {
    let mut random = Random::new(243);
    let ends = [(1, 1), (1, MOST), (MOST, MOST)];
    let mut recipes = ends
        .map(|(groups, tasks)| Recipe::new(0, groups, tasks))
        .to_vec();
    recipes.extend((0..12).map(|_| passing(&mut random)));
    for recipe in recipes {
        let needed = generated(tally, &mut random, recipe).len();
        for len in (0..=needed + 40).chain([2_048, 4_096, 65_536]) {
            let written = tally.generate(recipe, &random.bytes(len));
            assert_eq!(written.returned == 15, len < needed);
        }
    }
}

/// By each power of two as a seed and its neighbours, and by recipes of any kind.
pub fn seeds(tally: &mut Tally) {
    let mut random = Random::new(244);
    for power in (0..32).map(|bit| 1_u32 << bit) {
        for seed in [power - 1, power, power + 1, power.wrapping_neg()] {
            for (groups, tasks) in [(1, 1), (4, 9), (MOST, MOST)] {
                generated(tally, &mut random, Recipe::new(seed, groups, tasks));
            }
        }
    }
    for _ in 0..2_000 {
        let recipe = any_recipe(&mut random);
        for len in lengths(recipe) {
            tally.generate(recipe, &random.bytes(len));
        }
    }
}
