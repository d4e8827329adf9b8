//! What the marks of one literal ask about an execution.

use std::collections::HashSet;

use super::graph::{Graph, Point};
use crate::model::events::Event;
use crate::model::format::{Plan, INCONDITION, PRECONDITION};
use crate::model::literal::Literal;

/// An execution as the marks of one literal see it.
#[derive(Clone, Copy, Debug, PartialEq, Eq, Hash)]
pub struct History {
    /// Whether the node is complete after it (01: whole).
    pub completed: bool,
    /// Whether the event that last asserted (01: touched) the flag made the literal true.
    pub last: Option<bool>,
    /// Whether a task with this precondition started before the flag was asserted.
    pub exposed: bool,
    /// Whether a task with this incondition ran.
    pub held: bool,
    /// Whether a task with this precondition started after the opposite was last asserted.
    pub unmet: bool,
    /// Whether the opposite was asserted while another task with this incondition ran.
    pub broken: bool,
}

/// The histories of all executions of the graph's node, each once.
pub fn histories(plan: &Plan, graph: &Graph, literal: Literal) -> HashSet<History> {
    let empty = History {
        completed: graph.points[0].completed,
        last: None,
        exposed: false,
        held: false,
        unmet: false,
        broken: false,
    };
    let mut seen = HashSet::from([(0, empty)]);
    let mut open = vec![(0, empty)];
    while let Some((at, history)) = open.pop() {
        let point = &graph.points[at];
        for &(event, next) in &point.next {
            let mut after = history.after(plan, literal, point, event);
            after.completed = graph.points[next].completed;
            if seen.insert((next, after)) {
                open.push((next, after));
            }
        }
    }
    seen.into_iter().map(|(_, history)| history).collect()
}

impl History {
    /// All but `completed` after an event at this point.
    fn after(mut self, plan: &Plan, literal: Literal, point: &Point, event: Event) -> History {
        if let Event::Start(task) = event {
            if plan.has(task, PRECONDITION, literal) {
                match self.last {
                    None => self.exposed = true,
                    Some(true) => {}
                    Some(false) => self.unmet = true,
                }
            }
            self.held |= plan.has(task, INCONDITION, literal);
        }
        for asserted in event.asserts(plan) {
            if asserted == literal {
                self.last = Some(true);
            } else if asserted == literal.opposite() {
                self.last = Some(false);
                self.broken |= plan.tasks().any(|other| {
                    other != event.node()
                        && point.statuses.runs(other)
                        && plan.has(other, INCONDITION, literal)
                });
            }
        }
        self
    }
}
