//! The verdict with nothing blocked, with a few branches blocked and with as many as may be, and by
//! plain Rust, which takes no list.

use std::hint::black_box;

use reference::model::blocked::Remaining;
use reference::model::calls::{make, Call};
use reference::model::format::{Plan, NO_PARENT};
use reference::model::verdict::Verdict;
use reference::tools::archive;
use reference::tools::generate::clear::clear_plan;
use reference::tools::generate::{Shape, LIMITS};
use reference::tools::random::Random;
use reference::tools::scenario::blocked::branches;

use crate::plain;
use crate::plans::of_verdict;
use crate::timing::{least, median, medians};

/// So many rounds over all plans: of each plan the least times count, and the ratio in the middle.
const ROUNDS: usize = 4;

/// Few are so many.
const FEW: usize = 2;

/// The times with nothing, few and many blocked, and by the plain program.
type Times = [f64; 4];

struct Timed {
    name: String,
    plan: Plan,
    few: Vec<usize>,
    many: Vec<usize>,
}

pub fn print() {
    let plans = plans();
    let round = |_| plans.iter().map(times).collect();
    let rounds: Vec<Vec<Times>> = (0..ROUNDS).map(round).collect();
    println!(
        "| plan | blocked: few, many | absent | nothing, µs | few | many | few / nothing | \
         many / nothing | plain, µs | nothing / plain |"
    );
    println!("|---|---|---|---|---|---|---|---|---|---|");
    for (at, timed) in plans.iter().enumerate() {
        let times: Vec<Times> = rounds.iter().map(|round| round[at]).collect();
        row(timed, &times);
    }
}

/// The plans of docs/benchmark.md, and some with many branches.
fn plans() -> Vec<Timed> {
    let mut all = Vec::new();
    for verdict in [Verdict::Clear, Verdict::Doomed, Verdict::Open] {
        for (shape, plan) in of_verdict(verdict) {
            all.push(timed(format!("{shape}, {}", verdict.word()), plan));
        }
    }
    let mut random = Random::new(103);
    for (name, shape) in [("bushy", Shape::BUSHY), ("even", Shape::EVEN)] {
        let plan = clear_plan(&mut random, LIMITS, shape);
        all.push(timed(format!("{name} with optional groups"), plan));
    }
    all.push(timed("one choice of 127 tasks".to_string(), choice()));
    all.push(timed("42 choices of two tasks".to_string(), choices()));
    all
}

/// A plan with its lists. What is timed must be right.
fn timed(name: String, plan: Plan) -> Timed {
    let many = most(&plan);
    let few: Vec<usize> = many.iter().copied().take(FEW).collect();
    for blocked in [&[][..], &few, &many] {
        let want = make(&Call::Verdict, &plan.bytes(), blocked, &mut []);
        let found = archive::make(&Call::Verdict, &mut plan.bytes(), blocked, &mut []);
        assert_eq!(found, want, "{name}");
    }
    Timed {
        name,
        plan,
        few,
        many,
    }
}

/// Each branch that may be blocked beside those before it.
fn most(plan: &Plan) -> Vec<usize> {
    let mut blocked = Vec::new();
    for node in branches(plan) {
        blocked.push(node);
        if Remaining::new(plan, &blocked).is_err() {
            blocked.pop();
        }
    }
    blocked
}

/// An any-of root.
fn choice() -> Plan {
    let root = Plan::new(64).any_of(b"ROOT", NO_PARENT);
    (0..127).fold(root, |plan, task: u16| {
        plan.task(b"TASK", 0, 1)
            .pre(task % 64, 0)
            .post(task % 64, 1)
    })
}

/// An all-of root with any-of groups of two tasks.
fn choices() -> Plan {
    let root = Plan::new(64).all_of(b"ROOT", NO_PARENT);
    (0..42).fold(root, |plan, choice: u16| {
        let group = 1 + 3 * choice as u8;
        let plan = plan.any_of(b"PICK", 0).task(b"ONE-", group, 1);
        let plan = plan.pre(choice, 0).post(choice, 1);
        plan.task(b"TWO-", group, 2).post(choice, 0)
    })
}

fn times(timed: &Timed) -> Times {
    let bytes = timed.plan.bytes();
    let call = |blocked: &[usize]| {
        let (mut lent, mut list) = (bytes.clone(), blocked.to_vec());
        move || archive::verdict(black_box(&mut lent), black_box(&mut list))
    };
    medians([
        &mut call(&[]),
        &mut call(&timed.few),
        &mut call(&timed.many),
        &mut || plain::verdict(black_box(&bytes)),
    ])
}

fn row(timed: &Timed, times: &[Times]) {
    let Timed {
        name,
        plan,
        few,
        many,
    } = timed;
    let least = |at: usize| format!("{:.1}", least(times.iter().map(|times| times[at])));
    let middle = |one: usize, other: usize| {
        let ratios = times.iter().map(|times| times[one] / times[other]);
        format!("{:.2}", median(ratios.collect()))
    };
    let [nothing, plain, slower] = [least(0), least(3), middle(0, 3)];
    let with_lists = match many.is_empty() {
        true => [(); 4].map(|()| String::from("-")),
        false => [least(1), least(2), middle(1, 0), middle(2, 0)],
    };
    let with_lists = with_lists.join(" | ");
    let absent = Remaining::new(plan, many).map_or(0, |left| left.absent().len());
    let (few, many) = (few.len(), many.len());
    println!(
        "| {name} | {few}, {many} | {absent} | {nothing} | {with_lists} | {plain} | {slower} |"
    );
}
