//! The time of every call on plans of many shapes: the table of docs/costs.md.

use std::hint::black_box;

use reference::model::calls::Call;
use reference::model::events::Event;
use reference::model::format::{Plan, PRECONDITION, SET};
use reference::model::listing::LISTING_LEN;
use reference::model::monitor::{state_len, State};
use reference::model::summary::summary_len;
use reference::model::verdict::verdict;
use reference::tools::archive;
use reference::tools::scenario::states::with_running;
use reference::tools::scenario::Case;

use crate::shapes::{shapes, Shaped};
use crate::timing::{grouped, least, medians};

/// Each time is the least of so many medians, taken in rounds over all plans.
const ROUNDS: usize = 8;

/// The columns.
const CALLS: [&str; 10] = [
    "refusal",
    "verdict",
    "summary",
    "fresh",
    "start",
    "finish",
    "finish together",
    "skip",
    "status",
    "listing",
];

pub fn print() {
    let shapes = shapes();
    let cases: Vec<Vec<Case>> = shapes.iter().map(|shaped| cases(&shaped.plan)).collect();
    cases.iter().flatten().for_each(check);
    let round = |_| cases.iter().map(|cases| times(cases)).collect();
    let rounds: Vec<Vec<Vec<f64>>> = (0..ROUNDS).map(round).collect();
    heading();
    for (at, shaped) in shapes.iter().enumerate() {
        let of_call = |name: &str| {
            let call = cases[at].iter().position(|case| case.call.name() == name)?;
            Some(least(rounds.iter().map(|round| round[at][call])))
        };
        row(shaped, CALLS.map(of_call));
    }
}

/// Every call as it is timed: accepted, so that it makes all its checks. Start and finish are those
/// of one task that nothing has to come before, with its needs met; the status is that after both.
/// Finished together are as many tasks as may be, which alone run. The skip is that of the last
/// group for which it is accepted at first, if there is one.
fn cases(plan: &Plan) -> Vec<Case> {
    let task = first_task(plan);
    let (start, finish) = (Event::Start(task), Event::Finish(task));
    let waiting = ready(plan, task);
    let running = waiting.step(plan, start).expect("an admitted start");
    let done = running.step(plan, finish).expect("an admitted finish");
    let ending = ending(plan);
    let all_run = with_running(plan, ending.iter().copied());
    let bytes = |state: &State| {
        let mut bytes = vec![0; state_len(plan)];
        state.write(&mut bytes);
        bytes
    };
    let mut lending = vec![
        (Call::Refusal, Vec::new()),
        (Call::Verdict, Vec::new()),
        (Call::Summary(0), vec![0; summary_len(plan)]),
        (Call::Fresh, vec![0; state_len(plan)]),
        (Call::Event(start), bytes(&waiting)),
        (Call::Event(finish), bytes(&running)),
        (Call::FinishTogether(ending), bytes(&all_run)),
        (Call::Status, bytes(&done)),
        (Call::Listing, vec![0; LISTING_LEN]),
    ];
    let first = State::fresh(plan);
    let skips = plan.optional_groups().map(Event::Skip);
    if let Some(skip) = skips.filter(|&skip| first.step(plan, skip).is_ok()).last() {
        lending.push((Call::Event(skip), bytes(&first)));
    }
    let case = |(call, lent)| Case {
        call,
        plan: plan.bytes(),
        blocked: Vec::new(),
        lent,
    };
    lending.into_iter().map(case).collect()
}

/// The first child of the first child and so on from the root: orders go upwards, so none applies.
fn first_task(plan: &Plan) -> usize {
    let mut node = 0;
    while let Some(child) = plan.children(node).next() {
        node = child;
    }
    node
}

/// The tasks, from the first on, that leave no flag opposite to one before them.
fn ending(plan: &Plan) -> Vec<usize> {
    let mut tasks = Vec::new();
    for task in plan.tasks() {
        tasks.push(task);
        let running = with_running(plan, tasks.iter().copied());
        if running.step_together(plan, &tasks).is_err() {
            tasks.pop();
        }
    }
    tasks
}

/// All tasks wait, and the flags are as at the start but for the needs of the task, which are met.
fn ready(plan: &Plan, task: usize) -> State {
    let mut flags = u64::from_le_bytes(plan.start);
    for need in plan.conditions_of(task, PRECONDITION) {
        let bit = 1 << need.flag;
        flags = if need.sign == SET {
            flags | bit
        } else {
            flags & !bit
        };
    }
    State {
        flags,
        ..State::fresh(plan)
    }
}

/// What is timed must be right, and accepted.
fn check(case: &Case) {
    let returned = case.compare(archive::make);
    assert!(returned == 0 || returned >= 128, "{returned}");
}

/// Each call by itself, with what it is lent written anew each time.
fn times(cases: &[Case]) -> Vec<f64> {
    let time = |case: &Case| {
        let (mut plan, mut lent) = (case.plan.clone(), case.lent.clone());
        let mut tasks = match &case.call {
            Call::FinishTogether(tasks) => tasks.clone(),
            _ => Vec::new(),
        };
        let mut call = || {
            lent.copy_from_slice(&case.lent);
            let (plan, lent) = (black_box(&mut plan), black_box(&mut lent));
            archive::make_with(&case.call, plan, lent, [&mut [], black_box(&mut tasks)])
        };
        let [time] = medians([&mut call]);
        time
    };
    cases.iter().map(time).collect()
}

fn heading() {
    println!("| plan | C | K | answer | {} |", CALLS.join(" | "));
    println!("|---|---|---|---{}|", "|---".repeat(CALLS.len()));
}

fn row(Shaped { name, plan }: &Shaped, times: [Option<f64>; CALLS.len()]) {
    let [conditions, orders] = [plan.conditions.len(), plan.orders.len()].map(grouped);
    let word = verdict(plan).word();
    let shown = |time: Option<f64>| time.map_or(String::from("-"), |time| format!("{time:.0}"));
    let times = times.map(shown).join(" | ");
    println!("| {name} | {conditions} | {orders} | {word} | {times} |");
}
