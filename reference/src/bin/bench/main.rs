//! Times calls of the archive on plans of 128 nodes and 64 flags, and the calls that make plans and
//! merge them, and prints the tables of docs/. No test depends on a time.
//!
//! Its modules in their order: timing; shapes, costs; plans, plain, verdicts, blocked, names,
//! sequences, members, generated, merged.

mod blocked;
mod costs;
mod generated;
mod members;
mod merged;
mod names;
mod plain;
mod plans;
mod sequences;
mod shapes;
mod timing;
mod verdicts;

use std::env::args;
use std::process::ExitCode;

const USAGE: &str = "\
bench          the verdict by the archive and by plain Rust, the table of docs/benchmark.md
bench once     each of these verdicts once by both, for a program that counts instructions
bench blocked  the verdict with nothing, few and many branches blocked, and by plain Rust
bench names    rule 5 on a plan of the greatest size by both
bench sequence the search for a sequence, by both, where many prefixes have to be tried
bench members  include and exclude of a child of the root, beside the verdict
bench generate generated plans, beside the checks of the same plan
bench merge    merged plans, beside the checks of both
bench cost     every call on plans of many shapes, the table of docs/costs.md";

fn main() -> ExitCode {
    let arguments: Vec<String> = args().skip(1).collect();
    let words: Vec<&str> = arguments.iter().map(String::as_str).collect();
    match words[..] {
        [] => verdicts::print(),
        ["once"] => verdicts::once(),
        ["blocked"] => blocked::print(),
        ["names"] => names::print(),
        ["sequence"] => sequences::print(),
        ["members"] => members::print(),
        ["generate"] => generated::print(),
        ["merge"] => merged::print(),
        ["cost"] => costs::print(),
        _ => {
            eprintln!("{USAGE}");
            return ExitCode::FAILURE;
        }
    }
    ExitCode::SUCCESS
}
