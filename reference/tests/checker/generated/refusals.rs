//! 30 and 15, and wrong calls, which the comparison finds.

use reference::model::generated::{answer, Recipe};
use reference::tools::scenario::generated::compared;
use reference::tools::scenario::Written;

use super::{generate, generated, ENOUGH};

/// 30, whatever seed and output are, and nothing is written.
#[track_caller]
fn refused(groups: usize, tasks: usize) {
    for seed in [0, 2_026, 1 << 31, u32::MAX] {
        for len in [0, 1, 16, 45, 46, ENOUGH, 2_048] {
            let out = vec![7; len];
            let after = generate(Recipe::new(seed, groups, tasks), &out);
            assert_eq!((after.returned, after.out), (30, out), "{groups}, {tasks}");
        }
    }
}

/// Numbers that are 1 or 60 again when they are cut to 1, 2 or 4 bytes, and the greatest of all.
fn huge() -> impl Iterator<Item = usize> {
    let cut = [1 << 8, 1 << 16, 1 << 32, 1 << 63].into_iter();
    let cut = cut.flat_map(|beyond: usize| [beyond, beyond + 1, beyond + 60]);
    cut.chain([127, 128, 255, usize::MAX - 59, usize::MAX])
}

/// No group, or more than 60.
#[test]
fn groups() {
    for tasks in [0, 1, 60, 61, usize::MAX] {
        refused(0, tasks);
        refused(61, tasks);
        huge().for_each(|groups| refused(groups, tasks));
    }
}

/// Fewer tasks than groups, or more than 60.
#[test]
fn tasks() {
    for groups in 1..=60 {
        refused(groups, 0);
        refused(groups, groups - 1);
        refused(groups, 61);
    }
    for groups in [1, 2, 30, 60] {
        huge().for_each(|tasks| refused(groups, tasks));
    }
}

/// At the limits there is a plan, and 15 where the output is shorter, an empty one too.
#[test]
fn short_outputs() {
    for (groups, tasks) in [(1, 1), (1, 2), (1, 60), (2, 2), (59, 60), (60, 60)] {
        let recipe = Recipe::new(2_026, groups, tasks);
        let plan = generated(recipe);
        for len in (0..plan.len()).step_by(7).chain([15, 16, plan.len() - 1]) {
            let out = vec![7; len];
            let after = generate(recipe, &out);
            assert_eq!((after.returned, after.out), (15, out), "{recipe:?}");
        }
    }
}

/// What an output held before is kept behind the plan and decides nothing.
#[test]
fn outputs_of_any_bytes() {
    for seed in [0, 2_026, u32::MAX] {
        let recipe = Recipe::new(seed, 5, 11);
        let plan = generated(recipe);
        for byte in 0..=255 {
            let out = vec![byte; plan.len() + 5];
            let Written { returned, out } = generate(recipe, &out);
            assert_eq!(returned, 256 + plan.len() as u32);
            assert_eq!(out, [&plan[..], &[byte; 5]].concat());
        }
    }
}

/// The comparison says this of a call that returns or leaves something else.
#[track_caller]
fn wrong(recipe: Recipe, call: impl FnOnce(Recipe, &mut [u8]) -> u32, says: &str) {
    let told = compared(recipe, &[7; 50], call).unwrap_err();
    assert!(told.contains(says), "{told}");
}

/// Calls that return another number, or leave another byte of the plan, behind it, or of a refused
/// call's output.
#[test]
fn wrong_calls() {
    let (right, refused, long) = (
        Recipe::new(0, 1, 1),
        Recipe::new(0, 0, 1),
        Recipe::new(0, 1, 2),
    );
    for (recipe, want) in [(right, 256 + 46), (refused, 30), (long, 15)] {
        assert_eq!(generate(recipe, &[7; 50]).returned, want);
        let says = format!("returns 46, not {want}");
        wrong(recipe, |_, _| 46, &says);
        for at in [0, 45, 49] {
            let written = |recipe, out: &mut [u8]| {
                let returned = answer(recipe, out);
                out[at] ^= 1;
                returned
            };
            wrong(recipe, written, "leaves 50 bytes");
        }
    }
}
