//! One comparison, and how many there were.

use std::fmt;

use reference::model::calls::{Answers, Call};
use reference::tools::memory::hex;
use reference::tools::scenario::{tally, Case};

pub struct Tally {
    topic: &'static str,
    comparisons: tally::Tally,
}

impl Tally {
    pub fn new(topic: &'static str) -> Tally {
        Tally {
            topic,
            comparisons: tally::Tally::default(),
        }
    }

    /// How often each refusal from 0 to 14 was met.
    pub fn counts(&self) -> [usize; 15] {
        let mut counts = [0; 15];
        for (refusal, count) in (0..).zip(&mut counts) {
            *count = self.comparisons.met(Call::Refusal.name(), refusal);
        }
        counts
    }

    /// Archive and reference agree on the refusal of these bytes, which is returned.
    #[track_caller]
    pub fn compare(&mut self, bytes: &[u8]) -> u32 {
        let case = Case {
            call: Call::Refusal,
            plan: bytes.to_vec(),
            blocked: Vec::new(),
            lent: Vec::new(),
        };
        let after = self.comparisons.compare(&Answers::by_rules(bytes), &case);
        after.returned
    }

    /// Archive and reference agree on the refusal, and it is the expected one.
    #[track_caller]
    pub fn expect(&mut self, bytes: &[u8], want: u32) {
        let found = self.compare(bytes);
        assert!(
            found == want,
            "{}: expected {want}, but both answer {found}, for {}",
            self.topic,
            hex(bytes)
        );
    }
}

impl fmt::Display for Tally {
    fn fmt(&self, f: &mut fmt::Formatter) -> fmt::Result {
        let total = self.comparisons.total();
        write!(f, "{:30}{total:8} comparisons", self.topic)
    }
}
