//! Blocked branches (02, 108).

mod calls;
mod executions;
mod marks;
mod refusals;
mod rows;
mod smaller;
mod states;

use reference::model::calls::Call;
use reference::model::events::Event;

use crate::make_blocking;

/// What the status call returns.
const COMPLETE: u32 = 128;
const UNFINISHED: u32 = 129;

/// PICK, after A, is GRP or F; GRP is B, the optional DROP and the choice SUB. MAY is G, H or
/// nothing.
const NESTED: &str = "flags 2\n0 ROOT all-of\n1 A--- task 0 under 0\n2 PICK any-of under 0\n\
    3 GRP- all-of under 2\n4 B--- task 0 under 3 leaves 0-set\n5 DROP optional under 3\n\
    6 C--- task 0 under 5\n7 SUB- any-of under 3\n8 D--- task 0 under 7\n9 E--- task 0 under 7\n\
    10 F--- task 0 under 2\n11 MAY- optional under 0\n12 G--- task 0 under 11\n\
    13 H--- task 0 under 11\norder 1 2\n";

fn start(task: usize) -> Call {
    Call::Event(Event::Start(task))
}

fn finish(task: usize) -> Call {
    Call::Event(Event::Finish(task))
}

fn skip(group: usize) -> Call {
    Call::Event(Event::Skip(group))
}

fn together(tasks: &[usize]) -> Call {
    Call::FinishTogether(tasks.to_vec())
}

/// Calls with these nodes blocked return these, each from the same bytes; a refused one leaves them.
#[track_caller]
fn check(plan: &[u8], blocked: &[usize], state: &[u8], rows: &[(Call, u32)]) {
    for (call, want) in rows {
        let mut lent = state.to_vec();
        let returned = make_blocking(call, plan, blocked, &mut lent);
        assert_eq!(returned, *want, "{call:?} with {blocked:?} blocked");
        assert!(*want == 0 || lent == state, "{call:?}");
    }
}
