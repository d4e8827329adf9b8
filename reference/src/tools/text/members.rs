//! The answer with some of the root's children aboard.

use std::fmt;

use super::print::called;
use super::source::Error;
use crate::model::calls::{verdict_of_code, Call};
use crate::model::format::Plan;
use crate::model::members::Change;
use crate::model::verdict::Verdict;
use crate::tools::archive;

/// What the archive answers once the last of these members of an accepted plan has come.
pub struct Members {
    plan: Plan,
    members: Vec<usize>,
    verdict: Verdict,
}

impl Members {
    /// Includes one after another, which are any numbers, from nobody.
    pub fn new(plan: Plan, numbers: &[usize]) -> Result<Members, Error> {
        let (mut bytes, mut list) = (plan.bytes(), vec![0; plan.nodes.len()]);
        let mut verdict = Verdict::Clear;
        for &number in numbers {
            let call = Call::Change(Change::Include(number));
            let returned = archive::make(&call, &mut bytes, &[], &mut list);
            verdict = verdict_of_code(returned).ok_or(Error::Member(number, returned))?;
        }
        Ok(Members {
            plan,
            members: numbers.to_vec(),
            verdict,
        })
    }
}

/// The verdict, and a line for each member, by number and name.
impl fmt::Display for Members {
    fn fmt(&self, f: &mut fmt::Formatter) -> fmt::Result {
        writeln!(f, "{}: with these aboard", self.verdict.word())?;
        let mut members = self.members.iter();
        members.try_for_each(|&member| writeln!(f, "{}", called(&self.plan, member)))
    }
}
