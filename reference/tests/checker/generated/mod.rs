//! Generated plans (02, 110: books for the soak bench).

mod laws;
mod refusals;
mod rows;

use reference::model::generated::Recipe;
use reference::tools::archive;
use reference::tools::scenario::generated::compared;
use reference::tools::scenario::Written;

/// So many bytes are enough for any plan: 121 nodes, 120 conditions and 59 orders.
const ENOUGH: usize = 1_462;

/// What archive and reference return, and leave of this output.
#[track_caller]
fn generate(recipe: Recipe, out: &[u8]) -> Written {
    match compared(recipe, out, archive::generate) {
        Ok(written) => written,
        Err(message) => panic!("{message}"),
    }
}

/// The plan by a recipe that passes.
#[track_caller]
fn generated(recipe: Recipe) -> Vec<u8> {
    let written = generate(recipe, &[7; ENOUGH]);
    let plan = written.plan().expect("a recipe that passes");
    plan.to_vec()
}
