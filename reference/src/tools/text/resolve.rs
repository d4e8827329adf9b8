//! Which single branches, blocked, make an OPEN plan CLEAR.

use std::fmt;

use super::print::called;
use crate::model::calls::{verdict_of_code, Call};
use crate::model::format::Plan;
use crate::model::verdict::Verdict;
use crate::tools::archive;

/// What the archive's verdicts say of an accepted plan.
pub struct Resolved {
    plan: Plan,
    verdict: Verdict,
    /// The nodes that can be blocked alone, and the verdict with each.
    branches: Vec<(usize, Verdict)>,
}

impl Resolved {
    /// Tries the nodes one by one: those that are no branch, or the only one of an any-of group, the
    /// archive refuses.
    pub fn new(plan: Plan) -> Resolved {
        let mut bytes = plan.bytes();
        let mut verdict = |blocked: &[usize]| {
            let returned = archive::make(&Call::Verdict, &mut bytes, blocked, &mut []);
            verdict_of_code(returned)
        };
        let whole = verdict(&[]).expect("the verdict on an accepted plan");
        let nodes = 0..plan.nodes.len();
        let branches = nodes.filter_map(|node| Some((node, verdict(&[node])?)));
        Resolved {
            branches: branches.collect(),
            plan,
            verdict: whole,
        }
    }

    /// The branches that make the plan CLEAR.
    fn clearing(&self) -> impl Iterator<Item = usize> + '_ {
        let clears = |&&(_, verdict): &&(usize, Verdict)| verdict == Verdict::Clear;
        self.branches.iter().filter(clears).map(|(node, _)| *node)
    }
}

/// The verdict, and for an OPEN plan a line for each branch that makes it CLEAR, by number and name.
impl fmt::Display for Resolved {
    fn fmt(&self, f: &mut fmt::Formatter) -> fmt::Result {
        let says = match self.verdict {
            Verdict::Clear => "nothing has to be blocked",
            Verdict::Doomed => "it stays so, whatever is blocked",
            Verdict::Open if self.branches.is_empty() => "no branch can be blocked alone",
            Verdict::Open if self.clearing().next().is_none() => {
                "no single branch, blocked, makes it CLEAR"
            }
            Verdict::Open => "it is CLEAR with one of these blocked",
        };
        writeln!(f, "{}: {says}", self.verdict.word())?;
        if self.verdict == Verdict::Open {
            for node in self.clearing() {
                writeln!(f, "{}", called(&self.plan, node))?;
            }
        }
        Ok(())
    }
}
