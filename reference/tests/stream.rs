//! Every call of the archive against the reference on a stream of plans of all sizes.
//!
//! Some seconds by default; `KNOWETOP_SECONDS=3600` for as long as that, `KNOWETOP_SEED=7` for
//! another stream. A difference is reported with the seed and the number of the plan.

use std::env::{var, VarError};
use std::panic::{catch_unwind, resume_unwind, AssertUnwindSafe};
use std::time::{Duration, Instant};

use reference::tools::random::Random;
use reference::tools::scenario::stream::{any_bytes, every_call, Damage};
use reference::tools::scenario::tally::Tally;

/// The plans of a run by default.
const PLANS: usize = 250;

fn main() {
    let seed = number("KNOWETOP_SEED").unwrap_or(1);
    let seconds = number("KNOWETOP_SECONDS").map(Duration::from_secs);
    let begin = Instant::now();
    let goes_on = |plans| match seconds {
        Some(seconds) => begin.elapsed() < seconds,
        None => plans < PLANS,
    };
    let mut random = Random::new(seed);
    let mut tally = Tally::default();
    let mut plans = 0;
    while goes_on(plans) {
        let bytes = any_bytes(&mut random, Damage::Sometimes);
        let compared = AssertUnwindSafe(|| every_call(&mut tally, &mut random, &bytes));
        if let Err(panic) = catch_unwind(compared) {
            eprintln!("plan {plans} of the stream with seed {seed}");
            resume_unwind(panic);
        }
        plans += 1;
    }
    println!("{tally}");
    let total = tally.total();
    println!("{total} comparisons in all, on {plans} plans of the stream with seed {seed}");
    assert!(total >= 100 * plans);
}

/// The number in a variable of the environment, if it is there.
fn number(name: &str) -> Option<u64> {
    match var(name) {
        Ok(value) => Some(value.parse().expect(name)),
        Err(VarError::NotPresent) => None,
        Err(error) => panic!("{name}: {error}"),
    }
}
