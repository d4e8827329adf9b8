//! Generated plans, beside the checks 1 to 14 of the same plan: a table of docs/costs.md.

use std::hint::black_box;

use reference::model::calls::Call;
use reference::model::generated::{Recipe, MOST};
use reference::tools::archive;
use reference::tools::scenario::generated::compared;
use reference::tools::scenario::Case;

use crate::timing::{grouped, least, median, medians};

/// So many rounds over all plans: of each plan the least times count, and the ratio in the middle.
const ROUNDS: usize = 8;

/// The groups and the tasks, from the fewest to the most of both.
const SIZES: [(usize, usize); 4] = [(1, 1), (1, MOST), (30, 30), (MOST, MOST)];

/// The times of the generate call and of the refusal of its plan.
type Times = [f64; 2];

pub fn print() {
    let recipes = SIZES.map(|(groups, tasks)| Recipe::new(2_026, groups, tasks));
    let plans = recipes.map(|recipe| (recipe, generated(recipe)));
    let round = |_| plans.iter().map(times).collect();
    let rounds: Vec<Vec<Times>> = (0..ROUNDS).map(round).collect();
    println!("| groups | tasks | bytes | generate, µs | refusal, µs | generate / refusal |");
    println!("|---|---|---|---|---|---|");
    for (at, (recipe, plan)) in plans.iter().enumerate() {
        let times = || rounds.iter().map(|round| round[at]);
        let [generate, refusal] = [0, 1].map(|call| least(times().map(|times| times[call])));
        let ratio = median(times().map(|[one, other]| one / other).collect());
        let sizes = [recipe.groups, recipe.tasks, plan.len()];
        let sizes = sizes.map(grouped).join(" | ");
        println!("| {sizes} | {generate:.2} | {refusal:.2} | {ratio:.2} |");
    }
}

/// The plan. What is timed must be right, and accepted.
fn generated(recipe: Recipe) -> Vec<u8> {
    let plan = recipe.plan().expect("sizes that pass").bytes();
    let written = compared(recipe, &vec![0; plan.len()], archive::generate);
    assert_eq!(written.map(|written| written.out), Ok(plan.clone()));
    let case = Case {
        call: Call::Refusal,
        plan: plan.clone(),
        blocked: Vec::new(),
        lent: Vec::new(),
    };
    assert_eq!(case.compare(archive::make), 0);
    plan
}

fn times((recipe, plan): &(Recipe, Vec<u8>)) -> Times {
    let (mut out, mut lent) = (plan.clone(), plan.clone());
    medians([
        &mut || archive::generate(black_box(*recipe), black_box(&mut out)),
        &mut || {
            let plan = black_box(&mut lent);
            archive::make_with(&Call::Refusal, plan, &mut [], [&mut [], &mut []])
        },
    ])
}
