//! The generate call (02, 110), which alone takes no plan: recipes, outputs to lend, comparisons.

use super::cases::lengths_around;
use super::Written;
use crate::model::generated::{answer, Recipe, MOST};
use crate::tools::memory::{hex, Lent};
use crate::tools::random::Random;

/// What the call returns and leaves of this output; or how it differs from the reference.
pub fn compared(
    recipe: Recipe,
    out: &[u8],
    call: impl FnOnce(Recipe, &mut [u8]) -> u32,
) -> Result<Written, String> {
    let (found, want) = (made(recipe, out, call), made(recipe, out, answer));
    let wrong = if found.returned != want.returned {
        format!("returns {}, not {}", found.returned, want.returned)
    } else if found.out != want.out {
        format!("leaves {}, not {}", hex(&found.out), hex(&want.out))
    } else {
        return Ok(found);
    };
    Err(format!(
        "generate by {recipe:?} {wrong}; lent was {}",
        hex(out)
    ))
}

/// Makes the call. The memory around the output must not change, and what the output holds before
/// may decide nothing.
fn made(recipe: Recipe, out: &[u8], call: impl FnOnce(Recipe, &mut [u8]) -> u32) -> Written {
    let mut lent = Lent::new(out).forget();
    let returned = call(recipe, lent.items());
    Written {
        returned,
        out: lent.back(),
    }
}

/// Any seed, or one near a power of two.
pub fn any_seed(random: &mut Random) -> u32 {
    let drawn = random.draw() as u32;
    let power = 1 << random.below(32);
    match random.below(4) {
        0 => random.pick(&[0, power, power - 1, power.wrapping_neg()]),
        _ => drawn,
    }
}

/// A recipe that is accepted.
pub fn passing(random: &mut Random) -> Recipe {
    let groups = random.within(1, MOST);
    let between = random.within(groups, MOST);
    let tasks = random.pick(&[groups, between, between, MOST]);
    Recipe::new(any_seed(random), groups, tasks)
}

/// A recipe of any kind: mostly accepted; or with a size around the limits, or one that is right
/// again when it is cut to 1, 2 or 4 bytes.
pub fn any_recipe(random: &mut Random) -> Recipe {
    let mut recipe = passing(random);
    let beyond = random.pick(&[1 << 8, 1 << 16, 1 << 32]);
    let around = random.pick(&[0, 1, MOST, MOST + 1, usize::MAX]);
    match random.below(16) {
        0 => recipe.groups = around,
        1 => recipe.tasks = around,
        2 => recipe.groups += beyond,
        3 => recipe.tasks += beyond,
        4 => recipe.tasks = recipe.groups - 1,
        _ => {}
    }
    recipe
}

/// Lengths of outputs for it: around the length of its plan, or of any kind where it has none.
pub fn lengths(recipe: Recipe) -> [usize; 6] {
    match recipe.plan() {
        Ok(plan) => lengths_around(plan.bytes().len()),
        Err(_) => [0, 1, 15, 16, 46, 2_048],
    }
}
