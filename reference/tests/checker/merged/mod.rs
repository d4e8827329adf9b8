//! Merged plans (02, 112: two books pooled).

mod laws;
mod refusals;
mod rows;

use reference::tools::archive;
use reference::tools::scenario::merged::Pair;
use reference::tools::scenario::Written;

/// So many bytes are enough for any plan.
const ENOUGH: usize = 5_136;

fn pair(first: &[u8], second: &[u8]) -> Pair {
    Pair::new([first.to_vec(), second.to_vec()])
}

/// What archive and reference return, and leave of this output.
#[track_caller]
fn merge(first: &[u8], second: &[u8], out: &[u8]) -> Written {
    match pair(first, second).compared(out, archive::merge) {
        Ok(written) => written,
        Err(message) => panic!("{message}"),
    }
}

/// The merged plan of two that merge.
#[track_caller]
fn merged(first: &[u8], second: &[u8]) -> Vec<u8> {
    let written = merge(first, second, &[7; ENOUGH]);
    let plan = written.plan().expect("plans that merge");
    plan.to_vec()
}

/// What is returned with enough bytes lent; a merged plan counts as 256.
#[track_caller]
fn returned(first: &[u8], second: &[u8]) -> u32 {
    merge(first, second, &[7; ENOUGH]).returned.min(256)
}
