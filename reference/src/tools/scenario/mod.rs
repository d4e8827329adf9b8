//! What tests of the public calls are made of: cases, states, recipes of plans, plans to be merged,
//! and lists of calls, of tasks, of blocked nodes and of members.
//!
//! A case is made through a function of the form of `reference` here, so that the same case can be
//! put to the reference and to the archive.

pub mod blocked;
pub mod cases;
pub mod generated;
pub mod lists;
pub mod members;
pub mod merged;
pub mod sequence;
pub mod states;
pub mod stream;
pub mod tally;
pub mod together;

use crate::model::calls::{self, Answers, Call};
use crate::model::format::Plan;
use crate::tools::memory::{hex, Lent};
use crate::tools::random::Random;

/// A call with the plan, the blocked nodes, and the output, state or list of members that it is lent.
#[derive(Clone, Debug, PartialEq, Eq)]
pub struct Case {
    pub call: Call,
    pub plan: Vec<u8>,
    pub blocked: Vec<usize>,
    pub lent: Vec<u8>,
}

/// What a call returns, and the lent memory after it.
#[derive(Clone, Debug, PartialEq, Eq)]
pub struct After {
    pub returned: u32,
    pub plan: Vec<u8>,
    pub lent: Vec<u8>,
}

/// What a call that makes a plan returns, and the output after it.
#[derive(Clone, Debug, PartialEq, Eq)]
pub struct Written {
    pub returned: u32,
    pub out: Vec<u8>,
}

impl Written {
    /// The plan, if the call was accepted.
    pub fn plan(&self) -> Option<&[u8]> {
        let len = self.returned.checked_sub(256)?;
        self.out.get(..len as usize)
    }
}

/// Makes a call of the reference.
pub fn reference(call: &Call, plan: &mut [u8], blocked: &[usize], lent: &mut [u8]) -> u32 {
    calls::make(call, plan, blocked, lent)
}

impl Case {
    /// The reference's return. The other calls must return and leave the same.
    #[track_caller]
    pub fn compare(&self, other: impl FnOnce(&Call, &mut [u8], &[usize], &mut [u8]) -> u32) -> u32 {
        let answers = Answers::by_rules(&self.plan).blocking(&self.blocked);
        match self.compared(&answers, other) {
            Ok(after) => after.returned,
            Err(message) => panic!("{message}"),
        }
    }

    /// What these answers to the plan and the list return and leave, or how the other calls return
    /// or leave something else.
    pub fn compared(
        &self,
        answers: &Answers,
        other: impl FnOnce(&Call, &mut [u8], &[usize], &mut [u8]) -> u32,
    ) -> Result<After, String> {
        assert_eq!(answers.blocked(), self.blocked, "answers to another list");
        let want = self.make(|call, _, _, lent| answers.make(call, lent));
        let found = self.make(other);
        let wrong = if found.returned != want.returned {
            format!("returns {}, not {}", found.returned, want.returned)
        } else if found.plan != want.plan {
            format!("leaves the plan as {}", hex(&found.plan))
        } else if found.lent != want.lent {
            format!("leaves {}, not {}", hex(&found.lent), hex(&want.lent))
        } else {
            return Ok(want);
        };
        let Case { call, blocked, .. } = self;
        let (plan, lent) = (hex(&self.plan), hex(&self.lent));
        Err(format!(
            "{call:?} with {blocked:?} blocked {wrong}; lent were plan {plan} and {lent}"
        ))
    }

    /// Makes the call. The memory around the lent pieces must not change.
    pub fn make(&self, make: impl FnOnce(&Call, &mut [u8], &[usize], &mut [u8]) -> u32) -> After {
        let mut plan = Lent::new(&self.plan);
        let mut lent = Lent::new(&self.lent);
        match self.call {
            Call::Summary(_) | Call::Fresh | Call::Listing => lent = lent.forget(),
            Call::Change(_) => lent = lent.forget_after(members::list_len(&self.plan)),
            _ => {}
        }
        let returned = make(&self.call, plan.items(), &self.blocked, lent.items());
        After {
            returned,
            plan: plan.back(),
            lent: lent.back(),
        }
    }
}

/// A number for a call: mostly a task's or an optional group's or else a node's, sometimes one just
/// beyond, or one that is a node's again when it is cut to 1, 2 or 4 bytes.
pub fn any_number(random: &mut Random, plan: &Plan) -> usize {
    let nodes = plan.nodes.len();
    let node = random.below(nodes);
    let moving: Vec<usize> = plan.tasks().chain(plan.optional_groups()).collect();
    match random.below(16) {
        0 => random.pick(&[nodes, nodes + 1, 127, 128, 255, usize::MAX]),
        1 => node + random.pick(&[1 << 8, 1 << 16, 1 << 32]),
        2 => node,
        _ => random.pick(&moving),
    }
}
