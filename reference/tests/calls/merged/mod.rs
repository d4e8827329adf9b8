//! Merged plans: small and large, CLEAR and near it, with all numbers of flags, outputs of every
//! length, the same plan twice.

pub mod clear;
pub mod limits;
pub mod refused;
pub mod rules;

use reference::model::calls::{Answers, Call};
use reference::model::format::{Plan, Sizes, CLEAR, NO_PARENT, SET};
use reference::tools::generate::clear::clear_plan;
use reference::tools::generate::pairs::{agree, clear_pair, partner};
use reference::tools::generate::{any_plan, dense_plan, LIMITS, SHAPES};
use reference::tools::random::Random;
use reference::tools::scenario::merged::Pair;
use reference::tools::scenario::tally::Tally;
use reference::tools::scenario::Case;

/// The merged plan of two that merge, in an output that is long enough.
fn merged(tally: &mut Tally, random: &mut Random, pair: &Pair) -> Vec<u8> {
    let plan = pair.merged().expect("plans that merge").bytes();
    let len = plan.len() + random.below(16);
    tally.merge(pair, &random.bytes(len));
    plan
}

/// The merged plan has the reference's verdict, by runs.
fn same_verdict(tally: &mut Tally, random: &mut Random, pair: &Pair) {
    let plan = merged(tally, random, pair);
    let answers = Answers::by_runs(&plan);
    let case = Case {
        call: Call::Verdict,
        plan,
        blocked: Vec::new(),
        lent: Vec::new(),
    };
    tally.compare(&answers, &case);
}

/// Plans with up to four nodes each.
pub fn small(tally: &mut Tally) {
    let mut random = Random::new(261);
    for _ in 0..2_000 {
        let [one, mut other] = [(); 2].map(|()| {
            let nodes = random.within(1, 4);
            dense_plan(&mut random, nodes)
        });
        agree(&one, &mut other);
        same_verdict(tally, &mut random, &Pair::of(&[one, other]));
    }
}

/// Plans of all sizes, and others beside them.
pub fn large(tally: &mut Tally) {
    let mut random = Random::new(262);
    let few = Sizes {
        nodes: 40,
        conditions: 100,
        orders: 60,
        flags: 64,
    };
    for _ in 0..1_000 {
        let most = random.pick(&[LIMITS, few, few]);
        let shape = random.pick(&SHAPES);
        let plan = match random.below(3) {
            0 => clear_plan(&mut random, most, shape),
            _ => any_plan(&mut random, most),
        };
        let mut plans = [partner(&mut random, &plan), plan];
        random.shuffle(&mut plans);
        let pair = Pair::of(&plans);
        for len in pair.lengths() {
            tally.merge(&pair, &random.bytes(len));
        }
    }
}

/// One task with up to four conditions on so many flags, any of which are set at the start.
fn speaking(random: &mut Random, flags: u16) -> Plan {
    let mut plan = Plan::new(flags).task(b"TASK", NO_PARENT, 1);
    for flag in 0..usize::from(flags) {
        if random.below(2) == 0 {
            plan.set_at_start(flag);
        }
    }
    for _ in 0..random.below(3) {
        let flag = random.below(usize::from(flags)) as u16;
        let [need, leaving] = [(); 2].map(|()| random.pick(&[CLEAR, SET]));
        plan = plan.pre(flag, need).post(flag, leaving);
    }
    plan.conditions.sort_by_key(|own| (own.flag(), own.place()));
    plan.conditions
        .dedup_by_key(|own| (own.flag(), own.place()));
    plan.conditions.sort_by_key(|own| own.value);
    plan
}

/// Each two numbers of flags. Then one flag starts otherwise in the plan that has more: 34 if both
/// have it.
pub fn flags(tally: &mut Tally) {
    let mut random = Random::new(263);
    let numbers = (1..=64).flat_map(|one| (1..=64).map(move |other| [one, other]));
    for [one, other] in numbers {
        let [one, mut other] = [one, other].map(|flags| speaking(&mut random, flags));
        agree(&one, &mut other);
        let plans = [one, other];
        merged(tally, &mut random, &Pair::of(&plans));
        let [one, other] = plans.each_ref().map(|plan| usize::from(plan.flags));
        let (fewer, more) = (one.min(other), one.max(other));
        for flag in [
            random.below(fewer),
            fewer - 1,
            fewer.min(more - 1),
            more - 1,
        ] {
            let mut plans = plans.clone();
            let start = &mut plans[usize::from(other > one)].start;
            start[flag / 8] ^= 1 << (flag % 8);
            let returned = tally.merge(&Pair::of(&plans), &random.bytes(200)).returned;
            assert_eq!(returned == 34, flag < fewer, "flag {flag} of {plans:?}");
        }
    }
}

/// Outputs of every length up to that of the merged plan, and some beyond.
pub fn outputs(tally: &mut Tally) {
    let mut random = Random::new(264);
    let room = |nodes| Sizes {
        nodes,
        conditions: 12 * nodes,
        orders: 4 * nodes,
        flags: 64,
    };
    for nodes in [3, 4, 5, 6, 8, 12, 20, 40, 128] {
        let pair = Pair::of(&clear_pair(&mut random, room(nodes), 1));
        let needed = merged(tally, &mut random, &pair).len();
        for len in (0..=needed + 40).chain([5_136, 5_137, 65_536]) {
            let written = tally.merge(&pair, &random.bytes(len));
            assert_eq!(written.returned == 15, len < needed);
        }
    }
}

/// A plan with itself.
pub fn twice(tally: &mut Tally) {
    let mut random = Random::new(265);
    let most = Sizes {
        nodes: 70,
        ..LIMITS
    };
    let plans = (0..60).map(|at| match at % 3 {
        0 => any_plan(&mut random, most),
        _ => dense_plan(&mut random, 1 + at % 8),
    });
    let plans: Vec<Plan> = plans.collect();
    for plan in plans {
        let pair = Pair::of(&[plan.clone(), plan]);
        for len in pair.lengths() {
            tally.merge(&pair, &random.bytes(len));
        }
    }
}
