//! What the rules say of a node and one flag: tasks, any-of and optional groups.

use super::entry::Marks;
use crate::model::format::{Condition, CLEAR, INCONDITION, POSTCONDITION, PRECONDITION, SET};

/// The marks of a literal at a node, and the further facts on which their rules rest.
#[derive(Clone, Copy, Debug)]
pub struct Facts {
    /// Some task under the node asserts the flag (01: touches it).
    pub asserts_flag: bool,
    /// Some task under it has this pre- or incondition.
    pub wants: bool,
    /// Some task under it has this in- or postcondition.
    pub asserts: bool,
    /// Some task under it has this postcondition.
    pub leaves: bool,
    /// Some completed execution does not assert the flag.
    pub avoids: bool,
    /// Some completed execution neither asserts the flag nor starts a task with this
    /// precondition.
    pub quiet: bool,
    /// Some completed execution asserts the flag, and starts no task with this precondition
    /// before that.
    pub covered: bool,
    pub marks: Marks,
}

/// The facts about both literals of a flag, by sign.
pub type Pair = [Facts; 2];

/// The facts of each sign.
pub fn pair(facts: impl Fn(usize) -> Facts) -> Pair {
    [CLEAR, SET].map(|sign| facts(usize::from(sign)))
}

/// Of a task, from the conditions on this flag.
pub fn task(conditions: &[Condition], task: u8, flag: u16) -> Pair {
    let has = |place, sign| conditions.contains(&Condition::new(task, place, flag, sign));
    [CLEAR, SET].map(|sign| {
        let pre = has(PRECONDITION, sign);
        let inc = has(INCONDITION, sign);
        let post = has(POSTCONDITION, sign);
        let asserts_flag =
            inc || post || has(INCONDITION, 1 - sign) || has(POSTCONDITION, 1 - sign);
        Facts {
            asserts_flag,
            wants: pre || inc,
            asserts: inc || post,
            leaves: post,
            avoids: !asserts_flag,
            quiet: !asserts_flag && !pre,
            covered: asserts_flag && !pre,
            marks: Marks {
                may_pre: pre,
                must_pre: pre,
                may_post: post,
                must_post: post,
                may_inc: inc,
                must_inc: inc,
                may_clobber: false,
                must_clobber: false,
            },
        }
    })
}

pub fn any_of(branches: &[Pair]) -> Pair {
    pair(|sign| {
        let some = |fact: fn(&Facts) -> bool| branches.iter().any(|pair| fact(&pair[sign]));
        let every = |fact: fn(&Facts) -> bool| branches.iter().all(|pair| fact(&pair[sign]));
        Facts {
            asserts_flag: some(|f| f.asserts_flag),
            wants: some(|f| f.wants),
            asserts: some(|f| f.asserts),
            leaves: some(|f| f.leaves),
            avoids: some(|f| f.avoids),
            quiet: some(|f| f.quiet),
            covered: some(|f| f.covered),
            marks: Marks {
                may_pre: some(|f| f.marks.may_pre),
                must_pre: every(|f| f.marks.must_pre),
                may_post: some(|f| f.marks.may_post),
                must_post: every(|f| f.marks.must_post),
                may_inc: some(|f| f.marks.may_inc),
                must_inc: every(|f| f.marks.must_inc),
                may_clobber: some(|f| f.marks.may_clobber),
                must_clobber: every(|f| f.marks.must_clobber),
            },
        }
    })
}

/// Of an optional group: an any-of group with one more branch.
pub fn optional(branches: &[Pair]) -> Pair {
    any_of(&[branches, &[[WITHOUT_TASKS; 2]]].concat())
}

/// Of the branch that has no tasks: its completed execution is the skip alone, which asserts no
/// flag and has no conditions.
const WITHOUT_TASKS: Facts = Facts {
    asserts_flag: false,
    wants: false,
    asserts: false,
    leaves: false,
    avoids: true,
    quiet: true,
    covered: false,
    marks: Marks::NONE,
};
