//! The archive's refusals against the reference's.

mod boundaries;
mod damage;
mod faults;
mod randoms;
mod tally;

use tally::Tally;

type Topic = (&'static str, fn(&mut Tally));

const TOPICS: [Topic; 13] = [
    ("sizes and lengths", boundaries::sizes::all),
    ("start flags", boundaries::nodes::start_flags),
    ("names", boundaries::nodes::names),
    ("kinds and minutes", boundaries::nodes::kinds_and_minutes),
    (
        "parents and children",
        boundaries::nodes::parents_and_children,
    ),
    ("conditions", boundaries::conditions::all),
    ("orders", boundaries::orders::all),
    ("two faults at once", faults::pairs),
    ("wrong lengths of valid plans", damage::lengths),
    ("one byte damaged", damage::single_bytes),
    ("random bytes", randoms::bytes),
    ("random valid plans", randoms::valid),
    ("random edits of valid plans", randoms::edited),
];

fn main() {
    let mut total = [0; 15];
    for (topic, run) in TOPICS {
        let mut tally = Tally::new(topic);
        run(&mut tally);
        println!("{tally}");
        for (sum, count) in total.iter_mut().zip(tally.counts()) {
            *sum += count;
        }
    }
    let comparisons: usize = total.iter().sum();
    println!("{comparisons} comparisons in all, by refusal from 0 to 14: {total:?}");
    assert!(comparisons >= 200_000);
    assert!(total.iter().all(|&count| count >= 300));
}
