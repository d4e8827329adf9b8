//! Merged plans, beside the checks 1 to 14 of both: a table of docs/costs.md.

use std::hint::black_box;

use reference::model::calls::Call;
use reference::model::format::{Plan, Sizes};
use reference::tools::archive;
use reference::tools::generate::pairs::agree;
use reference::tools::generate::{flat_plan, LIMITS};
use reference::tools::random::Random;
use reference::tools::scenario::merged::Pair;
use reference::tools::scenario::Case;

use crate::timing::{grouped, least, median, medians};

/// So many rounds over all pairs: of each the least times count, and the ratio in the middle.
const ROUNDS: usize = 8;

struct Timed {
    name: &'static str,
    plans: [Vec<u8>; 2],
    merged: Vec<u8>,
}

/// The times of the merge call, and of the refusals of both plans and of the merged one.
type Times = [f64; 4];

pub fn print() {
    let pairs = pairs();
    let round = |_| pairs.iter().map(times).collect();
    let rounds: Vec<Vec<Times>> = (0..ROUNDS).map(round).collect();
    let calls = "merge, µs | refusals of both, µs | refusal of the merged plan, µs";
    println!("| plans | nodes | C | K | bytes | {calls} | merge / refusals |");
    println!("|---|---|---|---|---|---|---|---|---|");
    for (at, timed) in pairs.iter().enumerate() {
        let times = || rounds.iter().map(|round| round[at]);
        let both = |[_, first, second, _]: Times| first + second;
        let merge = least(times().map(|times| times[0]));
        let refusals = least(times().map(both));
        let refusal = least(times().map(|times| times[3]));
        let ratio = median(times().map(|times| times[0] / both(times)).collect());
        let (name, sizes) = (timed.name, sizes(timed));
        println!("| {name} | {sizes} | {merge:.2} | {refusals:.2} | {refusal:.2} | {ratio:.2} |");
    }
}

/// The nodes of both plans, and the conditions, the orders and the bytes of the merged one.
fn sizes(timed: &Timed) -> String {
    let [one, other] = timed.plans.each_ref().map(|plan| Sizes::read(plan).nodes);
    let all = Sizes::read(&timed.merged);
    let rest = [all.conditions, all.orders, timed.merged.len()];
    format!("{one}, {other} | {}", rest.map(grouped).join(" | "))
}

/// From the smallest plans to the greatest that can be merged.
fn pairs() -> Vec<Timed> {
    let mut random = Random::new(112);
    let mut drawn = |name, sizes: [[usize; 3]; 2]| {
        let [one, mut other] = sizes.map(|[nodes, conditions, orders]| {
            let sizes = Sizes {
                nodes,
                conditions,
                orders,
                flags: LIMITS.flags,
            };
            flat_plan(&mut random, sizes)
        });
        agree(&one, &mut other);
        timed(name, &[one, other])
    };
    vec![
        drawn("two bare tasks", [[1, 0, 0]; 2]),
        drawn("bare", [[63, 0, 0], [64, 0, 0]]),
        drawn("half of all", [[31, 256, 128], [32, 256, 128]]),
        drawn("all, in equal parts", [[63, 512, 256], [64, 512, 256]]),
        drawn("nearly all in the first", [[125, 1_000, 512], [2, 24, 0]]),
        drawn("nearly all in the second", [[2, 24, 0], [125, 1_000, 512]]),
    ]
}

/// A pair as it is timed. It must be right, and accepted.
fn timed(name: &'static str, plans: &[Plan; 2]) -> Timed {
    let pair = Pair::of(plans);
    let merged = pair.merged().expect("plans that merge").bytes();
    let written = pair.compared(&vec![0; merged.len()], archive::merge);
    assert_eq!(written.map(|written| written.out), Ok(merged.clone()));
    let case = Case {
        call: Call::Refusal,
        plan: merged.clone(),
        blocked: Vec::new(),
        lent: Vec::new(),
    };
    assert_eq!(case.compare(archive::make), 0);
    Timed {
        name,
        plans: pair.plans,
        merged,
    }
}

fn times(timed: &Timed) -> Times {
    let Timed { plans, merged, .. } = timed;
    let ([mut first, mut second], mut out) = (plans.clone(), merged.clone());
    let mut refusals = [&plans[0], &plans[1], merged].map(|plan| {
        let mut plan = plan.clone();
        move || {
            archive::make_with(
                &Call::Refusal,
                black_box(&mut plan),
                &mut [],
                [&mut [], &mut []],
            )
        }
    });
    let [one, other, all] = refusals.each_mut();
    let mut merge = || {
        let plans = [black_box(&mut first[..]), black_box(&mut second[..])];
        archive::merge(plans, black_box(&mut out))
    };
    medians([&mut merge, one, other, all])
}
