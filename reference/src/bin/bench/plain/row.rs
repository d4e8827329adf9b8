//! The facts of one node about all flags at once.

use super::words::{or, Literals};

#[derive(Clone, Copy, Default)]
pub struct Row {
    pub avoids: u64,
    pub quiet: Literals,
    pub covered: Literals,
    pub may_pre: Literals,
    pub may_post: Literals,
    pub may_inc: Literals,
    pub must_inc: Literals,
    /// Some task under the node has it as pre- or incondition.
    pub wants: Literals,
    /// Some task under it has it as in- or postcondition.
    pub asserts: Literals,
    /// Some task under it has it as postcondition.
    pub leaves: Literals,
    pub may_clobber: Literals,
    pub must_clobber: Literals,
}

pub type Rows = [Row; 128];

impl Row {
    /// Of a task, from its conditions.
    pub fn task(&[pre_clear, pre_set, inc_clear, inc_set, post_clear, post_set]: &[u64; 6]) -> Row {
        let asserted = post_clear | post_set;
        let (pre, inc, post) = (
            [pre_clear, pre_set],
            [inc_clear, inc_set],
            [post_clear, post_set],
        );
        Row {
            avoids: !asserted,
            quiet: pre.map(|pre| !asserted & !pre),
            covered: pre.map(|pre| asserted & !pre),
            may_pre: pre,
            may_post: post,
            may_inc: inc,
            must_inc: inc,
            wants: or(pre, inc),
            asserts: or(inc, post),
            leaves: post,
            may_clobber: [0; 2],
            must_clobber: [0; 2],
        }
    }

    /// The flags that no task under the node asserts.
    pub fn silent(&self) -> u64 {
        !(self.asserts[0] | self.asserts[1])
    }

    pub fn must_pre(&self) -> Literals {
        or(self.quiet, self.covered).map(|word| !word)
    }

    pub fn must_post(&self) -> Literals {
        let [clear, set] = self.may_post;
        [set, clear].map(|opposite| !(self.avoids | opposite))
    }
}
