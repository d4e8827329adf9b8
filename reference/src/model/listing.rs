//! The listing of a plan, and what the program prints.

use std::cmp::Reverse;
use std::fmt::Write;

use crate::model::format::Plan;
use crate::model::rules::accept;
use crate::model::verdict::{verdict, Verdict};
use crate::model::waits::Waits;

/// The bytes that the call must be lent, however short the text is.
pub const LISTING_LEN: usize = 2048;

/// The text for an accepted plan.
pub fn text(plan: &Plan) -> String {
    text_with(plan, verdict(plan))
}

/// The text, once the verdict is known.
fn text_with(plan: &Plan, verdict: Verdict) -> String {
    let waits = Waits::new(plan);
    let mut lines: Vec<(u32, usize)> = plan
        .tasks()
        .map(|task| (waits.longest(plan, task), task))
        .collect();
    // The longest wait first, ties by name in byte order, equal names by lower node.
    lines.sort_by_key(|&(wait, task)| (Reverse(wait), plan.nodes[task].name, task));
    let mut text = format!("{} {}\n", verdict.word(), waits.length(0));
    for (wait, task) in lines {
        let name = String::from_utf8_lossy(&plan.nodes[task].name);
        writeln!(text, "{name} {wait}").expect("a text takes in any line");
    }
    text
}

/// The call on an accepted plan with this verdict: writes the text and answers its length, or
/// meets refusal 15.
pub fn listing(
    plan: &Plan,
    verdict: impl FnOnce() -> Verdict,
    out: &mut [u8],
) -> Result<usize, u32> {
    if out.len() < LISTING_LEN {
        return Err(15);
    }
    let text = text_with(plan, verdict());
    out[..text.len()].copy_from_slice(text.as_bytes());
    Ok(text.len())
}

/// What the program prints for these bytes of standard input.
pub fn printed(input: &[u8]) -> String {
    match accept(input) {
        Ok(plan) => text(&plan),
        Err(number) => format!("REFUSED {number}\n"),
    }
}
