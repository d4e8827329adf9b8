//! The public calls with the numbers that they return in C.

use std::cell::OnceCell;

use crate::model::blocked::Remaining;
use crate::model::events::Event;
use crate::model::format::Plan;
use crate::model::listing::listing;
use crate::model::marks::{marks, Marks};
use crate::model::members::{change, Change};
use crate::model::monitor::{finish_together, fresh, happen, status, Progress};
use crate::model::rules::accept;
use crate::model::runs;
use crate::model::summary::summary;
use crate::model::verdict::{from_marks, Verdict};

/// A call, without the plan, the list of blocked nodes and the memory that it is lent.
#[derive(Clone, Debug, PartialEq, Eq)]
pub enum Call {
    Refusal,
    Verdict,
    /// Of this node.
    Summary(usize),
    Fresh,
    /// Start, finish or skip.
    Event(Event),
    /// Of the tasks in this list, which may hold any numbers.
    FinishTogether(Vec<usize>),
    Status,
    Listing,
    /// Include or exclude a child of the root.
    Change(Change),
}

impl Call {
    pub fn name(&self) -> &'static str {
        match self {
            Call::Refusal => "refusal",
            Call::Verdict => "verdict",
            Call::Summary(_) => "summary",
            Call::Fresh => "fresh",
            Call::Event(Event::Start(_)) => "start",
            Call::Event(Event::Finish(_)) => "finish",
            Call::Event(Event::Skip(_)) => "skip",
            Call::FinishTogether(_) => "finish together",
            Call::Status => "status",
            Call::Listing => "listing",
            Call::Change(Change::Include(_)) => "include",
            Call::Change(Change::Exclude(_)) => "exclude",
        }
    }
}

impl From<Event> for Call {
    fn from(event: Event) -> Call {
        Call::Event(event)
    }
}

/// The answers to calls on given bytes of a plan with a list of blocked nodes. The marks are worked
/// out once for all calls.
pub struct Answers {
    plan: Result<Plan, u32>,
    blocked: Vec<usize>,
    /// Without the blocked subtrees, or the first refusal of the plan and the list.
    remaining: Result<Remaining, u32>,
    work_out: fn(&Plan) -> Vec<Vec<Marks>>,
    /// With the blocked subtrees absent.
    marks: OnceCell<Vec<Vec<Marks>>>,
    /// Of the whole plan.
    verdict: OnceCell<Verdict>,
}

impl Answers {
    /// With marks by rules, for plans of any size, and nothing blocked.
    pub fn by_rules(plan: &[u8]) -> Answers {
        Answers::new(accept(plan), Vec::new(), marks)
    }

    /// With marks by runs, for small plans, and nothing blocked.
    pub fn by_runs(plan: &[u8]) -> Answers {
        Answers::new(accept(plan), Vec::new(), runs::marks)
    }

    /// With this list of blocked nodes, which may hold any numbers.
    pub fn blocking(self, blocked: &[usize]) -> Answers {
        Answers::new(self.plan, blocked.to_vec(), self.work_out)
    }

    fn new(
        plan: Result<Plan, u32>,
        blocked: Vec<usize>,
        work_out: fn(&Plan) -> Vec<Vec<Marks>>,
    ) -> Answers {
        let remaining = match &plan {
            Ok(plan) => Remaining::new(plan, &blocked),
            Err(number) => Err(*number),
        };
        Answers {
            plan,
            blocked,
            remaining,
            work_out,
            marks: OnceCell::new(),
            verdict: OnceCell::new(),
        }
    }

    /// The blocked nodes.
    pub fn blocked(&self) -> &[usize] {
        &self.blocked
    }

    /// Makes the call. It is lent an output, a state or a list of members, which calls that use none
    /// leave alone.
    pub fn make(&self, call: &Call, lent: &mut [u8]) -> u32 {
        let done = match (call, &self.plan, &self.remaining) {
            (_, Err(number), _) => Err(*number),
            (Call::Refusal, Ok(_), _) => Ok(0),
            (Call::Listing, Ok(plan), _) => self.listing(plan, lent),
            (Call::Change(call), Ok(plan), _) => {
                change(plan, |plan| self.verdict_on(plan), *call, lent).map(code_of_verdict)
            }
            (_, Ok(_), Err(number)) => Err(*number),
            (_, Ok(_), Ok(remaining)) => self.on_remaining(remaining, call, lent),
        };
        match done {
            Ok(code) => code,
            Err(number) => number,
        }
    }

    /// The calls that take a list of blocked nodes.
    fn on_remaining(&self, plan: &Remaining, call: &Call, lent: &mut [u8]) -> Result<u32, u32> {
        let marks = || self.of_remaining(plan);
        match call {
            Call::Refusal | Call::Listing | Call::Change(_) => {
                unreachable!("{call:?} takes no list")
            }
            Call::Verdict => Ok(code_of_verdict(from_marks(&plan.whole, &marks()[0]))),
            Call::Summary(node) => summary(&plan.whole, marks, *node, lent).map(|()| 0),
            Call::Fresh => fresh(plan, lent).map(|()| 0),
            Call::Event(event) => happen(plan, lent, *event).map(|()| 0),
            Call::FinishTogether(tasks) => finish_together(plan, lent, tasks).map(|()| 0),
            Call::Status => status(plan, lent).map(code_of_progress),
        }
    }

    /// The listing is that of the whole plan.
    fn listing(&self, plan: &Plan, lent: &mut [u8]) -> Result<u32, u32> {
        let whole = || match &self.remaining {
            Ok(same) if self.blocked.is_empty() => from_marks(plan, &self.of_remaining(same)[0]),
            _ => self.verdict_on(plan),
        };
        let len = listing(plan, || *self.verdict.get_or_init(whole), lent)?;
        Ok(256 + len as u32)
    }

    /// Of a plan with nothing blocked.
    fn verdict_on(&self, plan: &Plan) -> Verdict {
        from_marks(plan, &(self.work_out)(plan)[0])
    }

    /// The marks at every node, or the refusal of the plan or the list.
    pub fn marks(&self) -> Result<&[Vec<Marks>], u32> {
        match &self.remaining {
            Ok(plan) => Ok(self.of_remaining(plan)),
            Err(number) => Err(*number),
        }
    }

    fn of_remaining(&self, plan: &Remaining) -> &[Vec<Marks>] {
        let work_out = || plan.spread(&(self.work_out)(&plan.plan));
        self.marks.get_or_init(work_out)
    }
}

/// Makes one call.
pub fn make(call: &Call, plan: &[u8], blocked: &[usize], lent: &mut [u8]) -> u32 {
    Answers::by_rules(plan).blocking(blocked).make(call, lent)
}

pub fn code_of_verdict(verdict: Verdict) -> u32 {
    match verdict {
        Verdict::Clear => 128,
        Verdict::Doomed => 129,
        Verdict::Open => 130,
    }
}

/// The verdict that a call returned, if it was accepted.
pub fn verdict_of_code(code: u32) -> Option<Verdict> {
    let mut verdicts = [Verdict::Clear, Verdict::Doomed, Verdict::Open].into_iter();
    verdicts.find(|&verdict| code_of_verdict(verdict) == code)
}

pub fn code_of_progress(progress: Progress) -> u32 {
    match progress {
        Progress::Complete => 128,
        Progress::Unfinished => 129,
    }
}
