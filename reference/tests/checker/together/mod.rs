//! Tasks that are finished together (02, 104).

mod calls;
mod conflicts;
mod marks;
mod singles;

use reference::model::calls::Call;
use reference::model::events::Event;

use crate::make;

/// A leaves the flag set, Z leaves it clear.
const OPPOSED: &str = "flags 1\n0 ROOT all-of\n1 A--- task 0 under 0 leaves 0-set\n\
    2 Z--- task 0 under 0 leaves 0-clear\n";

fn start(task: usize) -> Call {
    Call::Event(Event::Start(task))
}

fn finish(task: usize) -> Call {
    Call::Event(Event::Finish(task))
}

fn together(tasks: &[usize]) -> Call {
    Call::FinishTogether(tasks.to_vec())
}

/// Calls on the state return these, each from the same bytes; a refused one leaves them.
#[track_caller]
fn check(plan: &[u8], state: &[u8], rows: &[(&[usize], u32)]) {
    for (tasks, want) in rows {
        let mut lent = state.to_vec();
        assert_eq!(make(&together(tasks), plan, &mut lent), *want, "{tasks:?}");
        assert!(*want == 0 || lent == state, "{tasks:?}");
    }
}
