//! Comparisons of the archive with the reference, and how many there were.

use std::collections::BTreeMap;
use std::fmt;

use super::generated;
use super::merged::Pair;
use super::sequence::compared;
use super::{After, Case, Written};
use crate::model::calls::{Answers, Call};
use crate::model::generated::Recipe;
use crate::tools::archive;

/// How often each call returned what.
#[derive(Clone, Debug, Default)]
pub struct Tally {
    /// Answers with a length, and sequences, count as 256.
    counts: BTreeMap<(&'static str, u32), usize>,
}

impl Tally {
    /// Archive and reference agree on what the case returns and leaves.
    #[track_caller]
    pub fn compare(&mut self, answers: &Answers, case: &Case) -> After {
        match case.compared(answers, archive::make) {
            Ok(after) => {
                self.count(case.call.name(), after.returned);
                after
            }
            Err(message) => panic!("the archive differs: {message}"),
        }
    }

    /// The calls one after another, each lent what the last one left, and after each the status.
    #[track_caller]
    pub fn replay(&mut self, answers: &Answers, plan: &[u8], calls: &[Call], mut lent: Vec<u8>) {
        for call in calls.iter().flat_map(|call| [call.clone(), Call::Status]) {
            let case = Case {
                call,
                plan: plan.to_vec(),
                blocked: answers.blocked().to_vec(),
                lent,
            };
            lent = self.compare(answers, &case).lent;
        }
    }

    /// Archive and reference agree on the sequence or the refusal that these bytes meet.
    #[track_caller]
    pub fn sequence(&mut self, plan: &[u8]) -> u64 {
        match compared(plan, archive::sequence) {
            Ok(word) => {
                self.count("sequence", u32::try_from(word).unwrap_or(256));
                word
            }
            Err(message) => panic!("the archive differs: {message}"),
        }
    }

    /// Archive and reference agree on what a generate call with this output returns and leaves.
    #[track_caller]
    pub fn generate(&mut self, recipe: Recipe, out: &[u8]) -> Written {
        match generated::compared(recipe, out, archive::generate) {
            Ok(written) => {
                self.count("generate", written.returned);
                written
            }
            Err(message) => panic!("the archive differs: {message}"),
        }
    }

    /// Archive and reference agree on what a merge call with this output returns and leaves, also
    /// where both plans are in the same memory. A merged plan is accepted, and CLEAR as 02 says.
    #[track_caller]
    pub fn merge(&mut self, pair: &Pair, out: &[u8]) -> Written {
        if pair.is_twice() {
            let with_itself =
                |[plan, _]: [&mut [u8]; 2], out: &mut [u8]| archive::merge_with_itself(plan, out);
            self.merge_by(pair, out, with_itself);
        }
        self.merge_by(pair, out, archive::merge)
    }

    #[track_caller]
    fn merge_by(
        &mut self,
        pair: &Pair,
        out: &[u8],
        call: impl FnOnce([&mut [u8]; 2], &mut [u8]) -> u32,
    ) -> Written {
        match pair.compared(out, call) {
            Ok(written) => {
                if written.plan().is_some() {
                    pair.judged();
                }
                self.count("merge", written.returned);
                written
            }
            Err(message) => panic!("the archive differs: {message}"),
        }
    }

    fn count(&mut self, name: &'static str, returned: u32) {
        let key = (name, returned.min(256));
        *self.counts.entry(key).or_default() += 1;
    }

    /// How often a call of this name returned this.
    pub fn met(&self, name: &'static str, returned: u32) -> usize {
        self.counts.get(&(name, returned)).copied().unwrap_or(0)
    }

    pub fn total(&self) -> usize {
        self.counts.values().sum()
    }

    /// Takes in the counts of another.
    pub fn add(&mut self, other: &Tally) {
        for (&key, count) in &other.counts {
            *self.counts.entry(key).or_default() += count;
        }
    }
}

/// A line for each call: its comparisons, by return.
impl fmt::Display for Tally {
    fn fmt(&self, f: &mut fmt::Formatter) -> fmt::Result {
        let mut last = "";
        for (&(name, returned), count) in &self.counts {
            if name != last {
                let line = self.counts.iter().filter(|(key, _)| key.0 == name);
                let sum: usize = line.map(|(_, count)| count).sum();
                let end = if last.is_empty() { "" } else { "\n" };
                write!(f, "{end}{name:16}{sum:8} comparisons, by return:")?;
                last = name;
            }
            write!(f, " {returned}: {count}")?;
        }
        Ok(())
    }
}
