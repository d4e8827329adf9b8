//! The summary of a node (01: sheet).

use crate::model::format::Plan;
use crate::model::marks::Marks;

/// The length of a summary: 16V.
pub fn summary_len(plan: &Plan) -> usize {
    16 * usize::from(plan.flags)
}

/// The 2V entries of 8 bytes, from the marks of a node.
pub fn bytes(entries: &[Marks]) -> Vec<u8> {
    let marks = entries.iter().flat_map(|marks| marks.in_order());
    marks.map(u8::from).collect()
}

/// The call on an accepted plan with these marks: writes a node's summary, or meets refusal 15 or
/// 17.
pub fn summary<'a>(
    plan: &Plan,
    marks: impl FnOnce() -> &'a [Vec<Marks>],
    node: usize,
    out: &mut [u8],
) -> Result<(), u32> {
    let len = summary_len(plan);
    if out.len() < len {
        return Err(15);
    }
    if node >= plan.nodes.len() {
        return Err(17);
    }
    out[..len].copy_from_slice(&bytes(&marks()[node]));
    Ok(())
}
