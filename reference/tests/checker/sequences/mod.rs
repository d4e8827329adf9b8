//! Sequences of the root's children (02, 101), and which of them is the first (109).

mod first;
mod laws;
mod returned;
mod rows;

use reference::model::sequence::{admits, children, in_dictionary_order, word};
use reference::tools::archive;
use reference::tools::scenario::sequence::compared;

use crate::fields;

const SETS: &str = "SETS task 0 under 0 leaves 0-set";
const CLEARS: &str = "CLEA task 0 under 0 leaves 0-clear";
const NEEDS: &str = "NEED task 0 under 0 needs 0-clear";
const BARE: &str = "BARE task 0 under 0";

/// No sequence at all.
const NONE: &[[usize; 0]] = &[];

/// Every sequence of the children 1, 2 and 3.
const ANY_OF_THREE: [[usize; 3]; 6] = [
    [1, 2, 3],
    [1, 3, 2],
    [2, 1, 3],
    [2, 3, 1],
    [3, 1, 2],
    [3, 2, 1],
];

/// What the archive and the reference return.
#[track_caller]
fn returned(plan: &[u8]) -> u64 {
    match compared(plan, archive::sequence) {
        Ok(word) => word,
        Err(message) => panic!("{message}"),
    }
}

/// These are all admitted sequences, for the reference too, in dictionary order: the first of them
/// is returned, or 24 if there is none.
#[track_caller]
fn check<const N: usize>(plan: &[u8], want: &[[usize; N]]) {
    assert!(want.is_sorted_by(|one, other| one < other), "{want:?}");
    assert_eq!(admitted(plan), want);
    let first = want.first().map_or(24, |first| word(first));
    assert_eq!(returned(plan), first);
}

/// The sequences that the reference admits, in dictionary order.
#[track_caller]
fn admitted(plan: &[u8]) -> Vec<Vec<usize>> {
    let plan = fields(plan);
    let mut lists = in_dictionary_order(&children(&plan).unwrap());
    lists.retain(|list| admits(&plan, list));
    lists
}
