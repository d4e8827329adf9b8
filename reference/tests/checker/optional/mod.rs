//! Optional groups and skips (02, 105).

mod lists;
mod plans;
mod spelt_out;
mod states;

/// What the status call returns.
const COMPLETE: u32 = 128;
const UNFINISHED: u32 = 129;

/// DROP is A or B or nothing, and comes before T.
const BEFORE: &str = "flags 1\n0 ROOT all-of\n1 DROP optional under 0\n2 A--- task 0 under 1\n\
    3 B--- task 0 under 1\n4 T--- task 0 under 0\norder 1 4\n";

/// A choice between DROP, which stands in a group with A, and T.
const IN_BRANCH: &str = "flags 1\n0 PICK any-of\n1 GRP- all-of under 0\n2 DROP optional under 1\n\
    3 B--- task 0 under 2\n4 A--- task 0 under 1\n5 T--- task 0 under 0\n";
