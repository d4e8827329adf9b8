//! Include and exclude beside the verdict on the same plan, where all, half or none of the root's
//! children are members: a table of docs/costs.md.

use std::hint::black_box;

use reference::model::calls::Call;
use reference::model::format::{Plan, CLEAR, SET};
use reference::model::members::{
    plan_of,
    Change::{self, Exclude, Include},
};
use reference::model::verdict::Verdict;
use reference::tools::archive;
use reference::tools::scenario::members::{children, list_of};
use reference::tools::scenario::Case;

use crate::plans::of_verdict;
use crate::shapes::{funnel, shapes, Shaped};
use crate::timing::{grouped, least, median, medians};

/// So many rounds over all plans: of each plan the least times count, and the ratio in the middle.
const ROUNDS: usize = 4;

/// The columns: verdicts, and calls by the members before them.
const COLUMNS: [&str; 7] = [
    "verdict, µs",
    "without the last child",
    "all but the last: include it",
    "all: exclude the last",
    "half: include one",
    "nobody: include the first",
    "the first: exclude it",
];

/// So many of them are verdicts.
const VERDICTS: usize = 2;

type Times = [f64; COLUMNS.len()];

struct Timed {
    name: String,
    plan: Plan,
    /// The plan without the last child of the root, if it has others.
    rest: Plan,
    /// Each call with the list that it is lent.
    calls: [(Change, Vec<u8>); COLUMNS.len() - VERDICTS],
}

pub fn print() {
    let plans = plans();
    let round = |_| plans.iter().map(times).collect();
    let rounds: Vec<Vec<Times>> = (0..ROUNDS).map(round).collect();
    let times = |at| rounds.iter().map(|round| round[at]).collect();
    let numbered = plans.iter().enumerate();
    let mut rows: Vec<(f64, String)> = numbered.map(|(at, plan)| row(plan, times(at))).collect();
    rows.sort_by(|one, other| other.0.total_cmp(&one.0));
    let columns = COLUMNS.join(" | ");
    println!("| plan | children | C | K | {columns} | slowest call / slower verdict |");
    println!("|---|---|---|---{}|---|", "|---".repeat(COLUMNS.len()));
    rows.iter().for_each(|(_, row)| println!("{row}"));
}

/// The plans of docs/costs.md and docs/benchmark.md that have an all-of root, and one whose verdict is
/// slower without its last child.
fn plans() -> Vec<Timed> {
    let named = |Shaped { name, plan }| (name.to_string(), plan);
    let mut all: Vec<(String, Plan)> = shapes().into_iter().map(named).collect();
    let name = "flat, 83 tasks, one after them all, 42 after that one, a clash with a last child";
    all.push((name.to_string(), beside_funnel()));
    for verdict in [Verdict::Clear, Verdict::Doomed, Verdict::Open] {
        let plans = of_verdict(verdict).into_iter();
        all.extend(plans.map(|(shape, plan)| (format!("{shape}, {}", verdict.word()), plan)));
    }
    all.retain(|(_, plan)| plan.is_all_of(0));
    all.into_iter().map(timed).collect()
}

/// A funnel and a task that clashes with nearly all of it: the search for clashes ends early, and
/// without the task it goes through all.
fn beside_funnel() -> Plan {
    let plan = funnel(83, 42).task(b"CLAS", 0, 1);
    let plan = plan.pre(0, CLEAR).pre(1, SET).inc(1, CLEAR).inc(0, SET);
    plan.post(0, CLEAR).post(1, SET)
}

/// A plan with its calls. What is timed must be right, and accepted.
fn timed((name, plan): (String, Plan)) -> Timed {
    let children = children(&plan);
    let last = children.len() - 1;
    let calls = [
        (Include(children[last]), &children[..last]),
        (Exclude(children[last]), &children),
        (Include(children[last / 2]), &children[..last / 2]),
        (Include(children[0]), &[]),
        (Exclude(children[0]), &children[..1]),
    ];
    let calls = calls.map(|(call, members)| (call, list_of(&plan, members)));
    for (call, list) in &calls {
        let case = Case {
            call: Call::Change(*call),
            plan: plan.bytes(),
            blocked: Vec::new(),
            lent: list.clone(),
        };
        assert!(case.compare(archive::make) >= 128, "{name}");
    }
    let rest = match last {
        0 => plan.clone(),
        _ => plan_of(&plan, &children[..last]),
    };
    Timed {
        name,
        plan,
        rest,
        calls,
    }
}

fn times(timed: &Timed) -> Times {
    let plan = timed.plan.bytes();
    let mut of_calls = timed.calls.each_ref().map(|(call, list)| {
        let (mut plan, mut lent) = (plan.clone(), list.clone());
        let call = Call::Change(*call);
        move || {
            lent.copy_from_slice(list);
            let (plan, lent) = (black_box(&mut plan), black_box(&mut lent));
            archive::make_with(&call, plan, lent, [&mut [], &mut []])
        }
    });
    let [a, b, c, d, e] = of_calls.each_mut();
    let mut verdicts = [plan.clone(), timed.rest.bytes()]
        .map(|mut plan| move || archive::verdict(black_box(&mut plan), black_box(&mut [])));
    let [whole, rest] = verdicts.each_mut();
    medians([whole, rest, a, b, c, d, e])
}

/// The time of the slowest call by that of the slower verdict, and the line of the table.
fn row(timed: &Timed, times: Vec<Times>) -> (f64, String) {
    let Timed { name, plan, .. } = timed;
    let least = |column: usize| least(times.iter().map(|times| times[column]));
    let shown: Vec<String> = (0..COLUMNS.len())
        .map(|at| format!("{:.1}", least(at)))
        .collect();
    let greatest = |times: &[f64]| times.iter().copied().fold(0.0, f64::max);
    let ratio = |times: &Times| {
        let (verdicts, calls) = times.split_at(VERDICTS);
        greatest(calls) / greatest(verdicts)
    };
    let ratio = median(times.iter().map(ratio).collect());
    let sizes = [
        children(plan).len(),
        plan.conditions.len(),
        plan.orders.len(),
    ];
    let (sizes, shown) = (sizes.map(grouped).join(" | "), shown.join(" | "));
    (
        ratio,
        format!("| {name} | {sizes} | {shown} | {ratio:.2} |"),
    )
}
