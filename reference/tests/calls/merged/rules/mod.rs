//! How often another rule would merge, refuse or answer otherwise; 02's own, told in another way
//! than the model does, never does.

pub mod clear;
pub mod plans;
pub mod refusals;

use std::collections::BTreeMap;

/// How often each of these rules says otherwise.
#[derive(Default)]
struct Others(BTreeMap<&'static str, usize>);

impl Others {
    fn count(&mut self, name: &'static str, is_other: bool) {
        *self.0.entry(name).or_default() += usize::from(is_other);
    }

    /// So many rules, each at least so often.
    fn assert(&self, topic: &str, rules: usize, least: usize) {
        println!("{topic}, by other rules: {:?}", self.0);
        assert_eq!(self.0.len(), rules);
        assert!(self.0.values().all(|&count| count >= least));
    }
}
