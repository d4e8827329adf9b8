//! Every call of the archive against the reference: what it returns and each byte that it was lent.

mod blocked;
mod damage;
mod generated;
mod listings;
mod lists;
mod members;
mod merged;
mod sequences;
mod summaries;
mod together;

use std::num::NonZeroUsize;
use std::ops::RangeInclusive;
use std::panic::resume_unwind;
use std::sync::atomic::{AtomicUsize, Ordering};
use std::thread::{self, available_parallelism};
use std::time::Instant;

use reference::tools::scenario::tally::Tally;

type Topic = (&'static str, fn(&mut Tally));

const TOPICS: [Topic; 68] = [
    ("summaries of small plans, by runs", summaries::small),
    ("summaries of large plans, by rules", summaries::large),
    ("summaries of the samples", summaries::samples),
    ("outputs of every length around 16V", summaries::lengths),
    ("lists of calls on small plans", lists::small),
    ("lists of calls on large plans", lists::large),
    ("states of every length and fault", lists::states),
    ("states that no list reaches", lists::unreachable),
    ("places of every kind", lists::places),
    ("every byte at every node", lists::statuses),
    ("CLEAR and DOOMED, by all lists", lists::claims),
    ("lists of tasks in any order", together::orders),
    ("running tasks together", together::running),
    ("long lists of tasks", together::long),
    (
        "28 and 29, by up to three numbers",
        blocked::refusals::numbers,
    ),
    (
        "28 and 29, by lists of branches",
        blocked::refusals::branches_left,
    ),
    ("long lists of blocked nodes", blocked::refusals::long),
    (
        "lists of any kind on damaged plans",
        blocked::refusals::damaged,
    ),
    (
        "summaries with blocked nodes, by runs",
        blocked::summaries::small,
    ),
    (
        "summaries of large ones, by rules",
        blocked::summaries::large,
    ),
    (
        "calls with blocked nodes, small plans",
        blocked::runs::small,
    ),
    (
        "calls with blocked nodes, large plans",
        blocked::runs::large,
    ),
    (
        "states with blocked nodes, every fault",
        blocked::runs::states,
    ),
    ("every byte, with blocked nodes", blocked::runs::statuses),
    ("CLEAR and DOOMED with blocked nodes", blocked::runs::claims),
    (
        "more blocked, CLEAR and DOOMED",
        blocked::promises::more_blocked,
    ),
    (
        "more orders, CLEAR and DOOMED",
        blocked::promises::more_orders,
    ),
    ("the same on large plans", blocked::promises::large),
    ("listings of random plans", listings::random),
    ("listings of long, deep and equal waits", listings::extremes),
    ("listings of equal waits, by names", listings::ties),
    ("listings in every length around 2,048", listings::lengths),
    ("sequences of small plans", sequences::small),
    ("sequences of every small plan", sequences::every),
    ("sequences, places changed", sequences::places_changed),
    ("sequences of large plans", sequences::large),
    (
        "the first sequence, by verdicts",
        sequences::first::by_verdicts,
    ),
    ("the first sequence, by pairs", sequences::first::kept_back),
    ("members who come and go", members::small),
    ("members of every small plan", members::every),
    ("members of large plans", members::large),
    ("every list of members, every number", members::lists::every),
    ("lists of members of every length", members::lists::lengths),
    ("lists of members, every byte", members::lists::bytes),
    ("members by other rules", members::rules::told_apart),
    ("generated plans of every size", generated::every),
    ("generated plans, sizes of any kind", generated::sizes),
    (
        "generated plans, every length of output",
        generated::outputs,
    ),
    ("generated plans of many seeds", generated::seeds),
    (
        "generated plans by other rules",
        generated::rules::told_apart,
    ),
    ("merged plans, small", merged::small),
    ("merged plans, large", merged::large),
    ("merged plans, flags of both", merged::flags),
    ("merged plans, every length of output", merged::outputs),
    ("a plan merged with itself", merged::twice),
    ("merged plans of every two tasks", merged::clear::every),
    ("merged plans, two tasks beside one", merged::clear::beside),
    ("merged plans, large and CLEAR", merged::clear::large),
    ("merged plans around the limits", merged::limits::around),
    ("merged plans of uneven sizes", merged::limits::uneven),
    ("merged plans with damaged fields", merged::refused::damaged),
    ("merged plans with damaged bytes", merged::refused::bytes),
    ("merged plans of any bytes", merged::refused::any),
    (
        "merged plans by other rules",
        merged::rules::plans::told_apart,
    ),
    (
        "refusals of merges by other rules",
        merged::rules::refusals::told_apart,
    ),
    (
        "CLEAR merged plans by other rules",
        merged::rules::clear::told_apart,
    ),
    ("plans with damaged bytes", damage::bytes),
    ("plans with damaged fields", damage::fields),
];

/// What each call returned at least so often.
const MET: [(&str, usize, &[RangeInclusive<u32>]); 14] = [
    ("verdict", 20, &[1..=14, 28..=29, 128..=130]),
    ("summary", 20, &[0..=15, 17..=17, 28..=29]),
    ("fresh", 20, &[0..=15, 28..=29]),
    ("start", 20, &[0..=22, 28..=29]),
    ("finish", 20, &[0..=18, 22..=22, 28..=29]),
    ("skip", 20, &[0..=16, 18..=20, 27..=29]),
    ("finish together", 20, &[0..=18, 22..=22, 25..=26, 28..=29]),
    ("status", 20, &[1..=16, 28..=29, 128..=129]),
    ("listing", 20, &[1..=15, 256..=256]),
    ("sequence", 20, &[1..=14, 23..=24, 256..=256]),
    ("include", 20, &[1..=17, 31..=32, 128..=130]),
    ("exclude", 20, &[1..=17, 31..=32, 128..=130]),
    ("generate", 20, &[15..=15, 30..=30, 256..=256]),
    ("merge", 20, &[1..=15, 33..=34, 256..=256]),
];

/// The topics that one thread takes, each once it is done with the last: their comparisons and seconds.
fn take(next: &AtomicUsize) -> Vec<(usize, Tally, f32)> {
    let mut taken = Vec::new();
    loop {
        let topic = next.fetch_add(1, Ordering::Relaxed);
        let Some((_, run)) = TOPICS.get(topic) else {
            return taken;
        };
        let begin = Instant::now();
        let mut tally = Tally::default();
        run(&mut tally);
        taken.push((topic, tally, begin.elapsed().as_secs_f32()));
    }
}

/// All topics, over the machine's cores, in their order.
fn topics() -> Vec<(usize, Tally, f32)> {
    let cores = available_parallelism().map_or(1, NonZeroUsize::get);
    let next = AtomicUsize::new(0);
    let mut all = thread::scope(|scope| {
        let threads: Vec<_> = (0..cores).map(|_| scope.spawn(|| take(&next))).collect();
        let joined = threads.into_iter().map(|thread| thread.join());
        joined
            .flat_map(|taken| taken.unwrap_or_else(|cause| resume_unwind(cause)))
            .collect::<Vec<_>>()
    });
    all.sort_by_key(|(topic, ..)| *topic);
    all
}

fn main() {
    let mut all = Tally::default();
    for (topic, tally, seconds) in topics() {
        let (name, total) = (TOPICS[topic].0, tally.total());
        println!("{name:40}{total:8} comparisons, {seconds:.1} s");
        all.add(&tally);
    }
    println!("{all}");
    println!("{} comparisons in all", all.total());
    for (name, least, returns) in MET {
        for returned in returns.iter().cloned().flatten() {
            let met = all.met(name, returned);
            assert!(met >= least, "{name} returned {returned} only {met} times");
        }
    }
}
