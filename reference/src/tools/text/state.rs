//! A state to text.

use std::fmt;

use super::print::{called, set_flags};
use crate::model::events::Status;
use crate::model::format::Plan;
use crate::model::monitor::State;

/// A state with its plan.
pub struct Shown {
    pub plan: Plan,
    pub state: State,
}

/// The flags that are set, then each node, then the started tasks in the order of their starts.
impl fmt::Display for Shown {
    fn fmt(&self, f: &mut fmt::Formatter) -> fmt::Result {
        let Shown { plan, state } = self;
        set_flags(f, "set", |flag| state.flags >> flag & 1 == 1)?;
        for node in 0..plan.nodes.len() {
            writeln!(f, "{} {}", called(plan, node), self.word(node))?;
        }
        for (place, task) in (1..).zip(state.places.in_order()) {
            writeln!(f, "place {place} task {}", called(plan, task))?;
        }
        Ok(())
    }
}

impl Shown {
    /// How far a task or a group is.
    fn word(&self, node: usize) -> &'static str {
        let Shown { plan, state } = self;
        match state.statuses.0[node] {
            Status::Waiting if plan.is_task(node) => "waiting",
            Status::Waiting => match state.statuses.complete(plan, node) {
                true => "complete",
                false => "unfinished",
            },
            Status::Running => "running",
            Status::Done => "done",
            Status::Skipped => "skipped",
        }
    }
}
