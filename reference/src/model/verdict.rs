//! The answer for a plan.

use crate::model::format::{Plan, SET};
use crate::model::literal::Literal;
use crate::model::marks::{marks, root_marks, Marks};

#[derive(Clone, Copy, Debug, PartialEq, Eq)]
pub enum Verdict {
    Clear,
    Doomed,
    Open,
}

impl Verdict {
    pub fn word(self) -> &'static str {
        match self {
            Verdict::Clear => "CLEAR",
            Verdict::Doomed => "DOOMED",
            Verdict::Open => "OPEN",
        }
    }
}

/// The verdict on an accepted plan.
pub fn verdict(plan: &Plan) -> Verdict {
    from_marks(plan, &marks(plan)[0])
}

/// Whether the verdict is CLEAR. The first literal that may fail decides, and the marks of later
/// flags are not worked out.
pub fn is_clear(plan: &Plan) -> bool {
    let mut root = plan.literals().zip(root_marks(plan));
    root.all(|(literal, marks)| !may_fail(plan, literal, &marks))
}

/// The verdict, from the marks at the root.
pub fn from_marks(plan: &Plan, root: &[Marks]) -> Verdict {
    let some = |fact: fn(&Plan, Literal, &Marks) -> bool| {
        let mut root = plan.literals().zip(root);
        root.any(|(literal, marks)| fact(plan, literal, marks))
    };
    match (some(may_fail), some(is_doomed)) {
        (false, false) => Verdict::Clear,
        (true, true) => Verdict::Doomed,
        (true, false) => Verdict::Open,
        (false, true) => unreachable!("CLEAR and DOOMED exclude each other"),
    }
}

fn may_fail(plan: &Plan, literal: Literal, marks: &Marks) -> bool {
    marks.may_clobber || marks.may_pre && is_false_at_start(plan, literal)
}

fn is_doomed(plan: &Plan, literal: Literal, marks: &Marks) -> bool {
    marks.must_clobber || marks.must_pre && is_false_at_start(plan, literal)
}

fn is_false_at_start(plan: &Plan, literal: Literal) -> bool {
    plan.starts_set(usize::from(literal.flag)) != (literal.sign == SET)
}
