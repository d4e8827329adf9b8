//! What the bytes of a state (01: record) say, and the steps from one to the next, with refusals 15 to
//! 22 and 25 to 27.

use std::collections::HashSet;

use crate::model::blocked::strictly_rise;
use crate::model::events::{Event, Status, Statuses};
use crate::model::format::{Plan, CLEAR, INCONDITION, POSTCONDITION, PRECONDITION, SET};
use crate::model::literal::Literal;
use crate::model::places::Places;

/// What the bytes of a well-formed state say.
#[derive(Clone, Debug, PartialEq, Eq, Hash)]
pub struct State {
    /// Bit f is flag f.
    pub flags: u64,
    pub statuses: Statuses,
    pub places: Places,
}

#[derive(Clone, Copy, Debug, PartialEq, Eq)]
pub enum Progress {
    Complete,
    Unfinished,
}

/// The length of a state: 8 + 3N.
pub fn state_len(plan: &Plan) -> usize {
    places_begin(plan) + 2 * plan.nodes.len()
}

/// Where the places begin, after the flags and statuses: at byte 8 + N.
pub fn places_begin(plan: &Plan) -> usize {
    8 + plan.nodes.len()
}

/// 15: lent state too short.
pub fn long_enough(plan: &Plan, state: &[u8]) -> Result<(), u32> {
    if state.len() < state_len(plan) {
        return Err(15);
    }
    Ok(())
}

impl State {
    pub fn fresh(plan: &Plan) -> State {
        State {
            flags: u64::from_le_bytes(plan.start),
            statuses: Statuses::all_waiting(plan),
            places: Places::none(plan),
        }
    }

    /// What the bytes say, or refusal 15 or 16.
    pub fn read(plan: &Plan, bytes: &[u8]) -> Result<State, u32> {
        long_enough(plan, bytes)?;
        let mut flags = [0; 8];
        flags.copy_from_slice(&bytes[..8]);
        let flags = u64::from_le_bytes(flags);
        if (usize::from(plan.flags)..64).any(|flag| flags >> flag & 1 == 1) {
            return Err(16);
        }
        let mut statuses = Statuses::all_waiting(plan);
        for (node, status) in statuses.0.iter_mut().enumerate() {
            *status = match bytes[8 + node] {
                0 => Status::Waiting,
                1 if plan.is_task(node) => Status::Running,
                2 if plan.is_task(node) => Status::Done,
                2 if plan.is_optional(node) => Status::Skipped,
                _ => return Err(16),
            };
        }
        let places = Places::read(&bytes[places_begin(plan)..state_len(plan)]);
        if !places.fit(&statuses) {
            return Err(16);
        }
        Ok(State {
            flags,
            statuses,
            places,
        })
    }

    /// Writes the first 8 + 3N bytes.
    pub fn write(&self, bytes: &mut [u8]) {
        let mut shown = self.flags.to_le_bytes().to_vec();
        shown.extend(self.statuses.0.iter().map(|status| match status {
            Status::Waiting => 0,
            Status::Running => 1,
            Status::Done | Status::Skipped => 2,
        }));
        shown.extend(self.places.bytes());
        bytes[..shown.len()].copy_from_slice(&shown);
    }

    pub fn progress(&self, plan: &Plan) -> Progress {
        if self.statuses.complete(plan, 0) {
            Progress::Complete
        } else {
            Progress::Unfinished
        }
    }

    /// The state after the event, or the first of refusals 17 to 22, for a skip 27 in the place of
    /// 17.
    pub fn step(&self, plan: &Plan, event: Event) -> Result<State, u32> {
        self.statuses.check(plan, 0, event)?;
        if self.precondition_unmet(plan, event) {
            return Err(21);
        }
        let asserted: HashSet<Literal> = event.asserts(plan).collect();
        if self.breaks_incondition(plan, &[event.node()], &asserted) {
            return Err(22);
        }
        Ok(State {
            flags: self.flags_after(&asserted),
            statuses: self.statuses.after(event),
            places: self.places.after(event),
        })
    }

    /// The state after the finishes of the listed tasks in one step, or the first of refusals 25,
    /// 17, 18, 26 and 22, each checked over the whole list.
    pub fn step_together(&self, plan: &Plan, tasks: &[usize]) -> Result<State, u32> {
        some_rising(tasks)?;
        let finishes = || tasks.iter().map(|&task| Event::Finish(task));
        for number in [17, 18] {
            let meets = |event| self.statuses.check(plan, 0, event) == Err(number);
            if finishes().any(meets) {
                return Err(number);
            }
        }
        let of_task = |&task: &usize| plan.conditions_of(task, POSTCONDITION);
        let asserted: HashSet<Literal> = tasks.iter().flat_map(of_task).collect();
        if opposed(&asserted) {
            return Err(26);
        }
        if self.breaks_incondition(plan, tasks, &asserted) {
            return Err(22);
        }
        Ok(State {
            flags: self.flags_after(&asserted),
            statuses: finishes().fold(self.statuses.clone(), |statuses, e| statuses.after(e)),
            places: self.places.clone(),
        })
    }

    /// The flags after these literals, of which no two are opposites, are made true.
    fn flags_after(&self, asserted: &HashSet<Literal>) -> u64 {
        let of_sign = |sign| {
            let literals = asserted.iter().filter(move |literal| literal.sign == sign);
            literals.fold(0, |word, literal| word | 1 << literal.flag)
        };
        (self.flags | of_sign(SET)) & !of_sign(CLEAR)
    }

    fn is_true(&self, literal: Literal) -> bool {
        (self.flags >> literal.flag & 1 == 1) == (literal.sign == SET)
    }

    /// 21: a precondition is unmet at a start.
    fn precondition_unmet(&self, plan: &Plan, event: Event) -> bool {
        match event {
            Event::Start(task) => {
                let mut conditions = plan.conditions_of(task, PRECONDITION);
                conditions.any(|literal| !self.is_true(literal))
            }
            Event::Finish(_) | Event::Skip(_) => false,
        }
    }

    /// 22: making these literals true would break an incondition of a running task that is none of
    /// these nodes.
    fn breaks_incondition(
        &self,
        plan: &Plan,
        nodes: &[usize],
        asserted: &HashSet<Literal>,
    ) -> bool {
        let running = self.statuses.running(plan);
        let mut others = running.filter(|task| !nodes.contains(task));
        others.any(|other| {
            let mut held = plan.conditions_of(other, INCONDITION);
            held.any(|literal| asserted.contains(&literal.opposite()))
        })
    }
}

/// 25: the list is empty, or its numbers do not strictly rise.
pub fn some_rising(tasks: &[usize]) -> Result<(), u32> {
    if tasks.is_empty() || !strictly_rise(tasks) {
        return Err(25);
    }
    Ok(())
}

/// 26, of all postconditions of the listed tasks: two are opposites. By rule 11 these are not of
/// one task.
fn opposed(postconditions: &HashSet<Literal>) -> bool {
    let mut literals = postconditions.iter();
    literals.any(|literal| postconditions.contains(&literal.opposite()))
}
