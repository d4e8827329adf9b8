//! What a text says, and what may be wrong with it.

use std::fmt;

use crate::model::format::Plan;

/// What a text says: a plan and, for a damaged one, its length and the refusal that it meets.
#[derive(Clone, Debug, PartialEq, Eq)]
pub struct Source {
    pub plan: Plan,
    /// The bytes are cut to this length or filled up with zeros.
    pub length: Option<usize>,
    /// 0, or the refusal.
    pub refused: u32,
}

#[derive(Clone, Debug, PartialEq, Eq)]
pub enum Error {
    /// The number of a line, from 1, that is no line of a plan, and what is wrong with it.
    Line(usize, String),
    /// The plan is refused, and the text does not say so (or says another number); or the state is.
    Refused(u32),
    /// This child of the root cannot come aboard, by this refusal.
    Member(usize, u32),
    /// The text says that the plan is refused, and it is not.
    Accepted,
}

impl fmt::Display for Error {
    fn fmt(&self, f: &mut fmt::Formatter) -> fmt::Result {
        match self {
            Error::Line(number, what) => write!(f, "line {number}: {what}"),
            Error::Refused(number) => write!(f, "REFUSED {number}"),
            Error::Member(number, 17) => write!(f, "{number} is no node"),
            Error::Member(number, 31) => write!(f, "{number} is no child of an all-of root"),
            Error::Member(number, 32) => write!(f, "{number} is aboard already"),
            Error::Member(number, refusal) => write!(f, "{number}: REFUSED {refusal}"),
            Error::Accepted => write!(f, "said to be refused, but accepted"),
        }
    }
}

impl Source {
    pub fn bytes(&self) -> Vec<u8> {
        let mut bytes = self.plan.bytes();
        if let Some(length) = self.length {
            bytes.resize(length, 0);
        }
        bytes
    }
}
