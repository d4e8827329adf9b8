//! The sequence call (02, 101 and 109), which alone returns a word of 64 bits.

use crate::model::sequence::answer;
use crate::tools::memory::{hex, Lent};

/// What the call returns on these bytes, which it must leave as they are; or how it differs from
/// the reference.
pub fn compared(plan: &[u8], call: impl FnOnce(&mut [u8]) -> u64) -> Result<u64, String> {
    let mut lent = Lent::new(plan);
    let (found, want) = (call(lent.items()), answer(plan));
    let after = lent.back();
    let wrong = if found != want {
        format!("returns {found:#x}, not {want:#x}")
    } else if after != plan {
        format!("leaves the plan as {}", hex(&after))
    } else {
        return Ok(found);
    };
    Err(format!("the sequence call {wrong}; lent was {}", hex(plan)))
}
