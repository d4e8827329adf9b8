//! The merge call (02, 112), which alone takes two plans: outputs to lend, comparisons, and what is
//! said of the answer for a merged plan.

use std::cell::OnceCell;

use super::cases::lengths_around;
use super::Written;
use crate::model::calls::Call;
use crate::model::format::Plan;
use crate::model::merged::{answer, collide, merge};
use crate::tools::archive;
use crate::tools::memory::{hex, Lent};

/// What the verdict call returns where the verdict is CLEAR.
const CLEAR: u32 = 128;

/// The bytes of two plans, which may be refused, and what the reference merges them to.
pub struct Pair {
    pub plans: [Vec<u8>; 2],
    merged: Result<Plan, u32>,
    judged: OnceCell<Judged>,
}

/// Why a merged plan is CLEAR or not.
#[derive(Clone, Copy, Debug, PartialEq, Eq, PartialOrd, Ord)]
pub struct Judged {
    /// Whether each of the two plans is CLEAR, by the archive.
    pub clear: [bool; 2],
    /// Whether they collide, by the reference.
    pub collide: bool,
}

impl Judged {
    /// 02: CLEAR exactly when both are and they do not collide.
    pub fn is_clear(self) -> bool {
        self.clear == [true; 2] && !self.collide
    }
}

impl Pair {
    pub fn new(plans: [Vec<u8>; 2]) -> Pair {
        let merged = merge(&plans[0], &plans[1]);
        Pair {
            plans,
            merged,
            judged: OnceCell::new(),
        }
    }

    pub fn of([first, second]: &[Plan; 2]) -> Pair {
        Pair::new([first.bytes(), second.bytes()])
    }

    /// The merged plan, or the refusal without 15.
    pub fn merged(&self) -> Result<&Plan, u32> {
        self.merged.as_ref().map_err(|&number| number)
    }

    /// Whether the two plans are the same bytes.
    pub fn is_twice(&self) -> bool {
        self.plans[0] == self.plans[1]
    }

    /// Lengths of outputs: around that of the merged plan, or of any kind where there is none.
    pub fn lengths(&self) -> [usize; 6] {
        match self.merged() {
            Ok(plan) => lengths_around(plan.bytes().len()),
            Err(_) => [0, 1, 16, 48, 1_000, 5_136],
        }
    }

    /// What the call returns and leaves of this output; or how it differs from the reference, or
    /// that it wrote to a plan.
    pub fn compared(
        &self,
        out: &[u8],
        call: impl FnOnce([&mut [u8]; 2], &mut [u8]) -> u32,
    ) -> Result<Written, String> {
        let mut plans = self.plans.each_ref().map(|plan| Lent::new(plan));
        let mut lent = Lent::new(out).forget();
        let returned = call(plans.each_mut().map(Lent::items), lent.items());
        let (after, found) = (plans.map(Lent::back), lent.back());
        let mut left = out.to_vec();
        let want = answer(&self.merged, &mut left);
        let wrong = if returned != want {
            format!("returns {returned}, not {want}")
        } else if after != self.plans {
            let [first, second] = after.map(|plan| hex(&plan));
            format!("leaves the plans as {first} and {second}")
        } else if found != left {
            format!("leaves {}, not {}", hex(&found), hex(&left))
        } else {
            return Ok(Written {
                returned,
                out: found,
            });
        };
        let [first, second] = self.plans.each_ref().map(|plan| hex(plan));
        Err(format!(
            "merge {wrong}; lent were plans {first} and {second}, and {}",
            hex(out)
        ))
    }

    /// Of two plans that merge, why the merged one is CLEAR or not. It is accepted, and the archive
    /// says CLEAR of it exactly if 02 does.
    #[track_caller]
    pub fn judged(&self) -> Judged {
        *self.judged.get_or_init(|| self.judge())
    }

    #[track_caller]
    fn judge(&self) -> Judged {
        let merged = self.merged().expect("plans that merge").bytes();
        let [one, other] = self.plans.each_ref().map(|plan| Plan::read(plan));
        let judged = Judged {
            clear: self
                .plans
                .each_ref()
                .map(|plan| returned(Call::Verdict, plan) == CLEAR),
            collide: collide(&one, &other),
        };
        assert_eq!(returned(Call::Refusal, &merged), 0, "{}", hex(&merged));
        let is_clear = returned(Call::Verdict, &merged) == CLEAR;
        assert_eq!(
            is_clear,
            judged.is_clear(),
            "{judged:?}: {one:?} and {other:?}"
        );
        judged
    }
}

/// What a call of the archive returns that is lent nothing but the plan.
fn returned(call: Call, plan: &[u8]) -> u32 {
    archive::make(&call, &mut plan.to_vec(), &[], &mut [])
}
