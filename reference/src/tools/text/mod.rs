//! A plan, a state of it, what resolves it, and who is aboard, as lines of text;
//! `samples/README.md` describes them.

mod members;
mod parse;
mod print;
mod resolve;
mod source;
mod state;
#[cfg(test)]
mod tests;

use crate::model::format::Plan;
use crate::model::monitor::State;
use crate::model::rules::{accept, refusal};
use members::Members;
use resolve::Resolved;
pub use source::{Error, Source};
use state::Shown;

/// The bytes of a text, if their refusal is what the text says.
pub fn make(text: &str) -> Result<Vec<u8>, Error> {
    let source = Source::parse(text)?;
    let bytes = source.bytes();
    match refusal(&bytes) {
        number if number == source.refused => Ok(bytes),
        0 => Err(Error::Accepted),
        number => Err(Error::Refused(number)),
    }
}

/// The text of an accepted plan.
pub fn show(bytes: &[u8]) -> Result<String, Error> {
    match refusal(bytes) {
        0 => Ok(Source {
            plan: Plan::read(bytes),
            length: None,
            refused: 0,
        }
        .to_string()),
        number => Err(Error::Refused(number)),
    }
}

/// Which single branches, blocked, make an accepted plan CLEAR, by the archive's verdicts.
pub fn show_resolved(plan: &[u8]) -> Result<String, Error> {
    let plan = accept(plan).map_err(Error::Refused)?;
    Ok(Resolved::new(plan).to_string())
}

/// The answer with these children of an accepted plan's root aboard, by the archive's include calls.
pub fn show_members(plan: &[u8], members: &[usize]) -> Result<String, Error> {
    let plan = accept(plan).map_err(Error::Refused)?;
    Ok(Members::new(plan, members)?.to_string())
}

/// The text of a well-formed state of an accepted plan.
pub fn show_state(plan: &[u8], state: &[u8]) -> Result<String, Error> {
    let plan = accept(plan).map_err(Error::Refused)?;
    let state = State::read(&plan, state).map_err(Error::Refused)?;
    Ok(Shown { plan, state }.to_string())
}
