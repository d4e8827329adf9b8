//! The archive under valgrind: every call on damaged plans, and on some whole ones, with nodes blocked
//! and without, where it is an error to touch a byte around a plan, the output, the state, a list of
//! blocked nodes, of tasks or of members, or to decide anything by what an output held before or by
//! a byte after a list of members.
//!
//! `cargo run --release --bin guarded [PLANS [SEED]]`; it needs valgrind.

use std::env::{args, current_exe};
use std::process::{Command, ExitCode};

use reference::tools::random::Random;
use reference::tools::scenario::stream::{any_bytes, every_call, Damage};
use reference::tools::scenario::tally::Tally;
use reference::tools::valgrind;

fn main() -> ExitCode {
    let words: Vec<String> = args().skip(1).collect();
    if !valgrind::is_running() {
        return under_valgrind(&words);
    }
    let mut numbers = words.iter().map(|word| word.parse().expect("a number"));
    let plans = numbers.next().unwrap_or(150);
    let seed = numbers.next().unwrap_or(1);
    let mut random = Random::new(seed);
    let mut tally = Tally::default();
    for plan in 0..plans {
        let bytes = any_bytes(&mut random, Damage::Mostly);
        // Where an error is reported, the last of these lines names the plan.
        eprintln!("plan {plan} of seed {seed}: {} bytes", bytes.len());
        every_call(&mut tally, &mut random, &bytes);
    }
    println!(
        "{tally}\n{} comparisons in all, on {plans} plans",
        tally.total()
    );
    ExitCode::SUCCESS
}

/// Runs this program again under valgrind, which makes it fail at the end if there was an error.
fn under_valgrind(words: &[String]) -> ExitCode {
    let program = current_exe().expect("the path of this program");
    let run = Command::new("valgrind")
        .args(["--quiet", "--error-exitcode=1"])
        .arg(program)
        .args(words)
        .status();
    match run {
        Ok(status) if status.success() => {
            println!("no error under valgrind");
            ExitCode::SUCCESS
        }
        Ok(status) => {
            eprintln!("{status}");
            ExitCode::FAILURE
        }
        Err(error) => {
            eprintln!("valgrind: {error}");
            ExitCode::FAILURE
        }
    }
}
