//! Lists of tasks for a finish-together call.

use super::any_number;
use crate::model::format::Plan;
use crate::tools::random::Random;

/// A list of numbers, where these tasks run: mostly of some of them, as a call is to have it, or
/// with up to two things wrong; now and then of any numbers, or long.
pub fn any_tasks(random: &mut Random, plan: &Plan, running: &[usize]) -> Vec<usize> {
    let mut tasks = match random.below(16) {
        0 => any_numbers(random, plan),
        1 => long(random, plan),
        2 => plan.tasks().collect(),
        _ => some_of(random, running),
    };
    let faults = random.below(8).saturating_sub(5);
    for _ in 0..faults {
        spoil(random, plan, &mut tasks);
    }
    tasks
}

/// Some of these numbers, in their order: all, a few or none.
pub fn some_of(random: &mut Random, numbers: &[usize]) -> Vec<usize> {
    let rarity = random.within(1, 4);
    let kept = numbers.iter().filter(|_| random.below(rarity) == 0);
    kept.copied().collect()
}

/// Up to five numbers, in their order or not.
pub fn any_numbers(random: &mut Random, plan: &Plan) -> Vec<usize> {
    let len = random.below(6);
    let mut numbers: Vec<usize> = (0..len).map(|_| any_number(random, plan)).collect();
    if random.below(2) == 0 {
        numbers.sort_unstable();
    }
    numbers
}

/// Many more numbers than a plan has nodes: rising, from a task's on, or all the same.
pub fn long(random: &mut Random, plan: &Plan) -> Vec<usize> {
    let first = any_number(random, plan);
    let len = random.pick(&[129, 256, 1_000, 3_000]);
    match random.below(4) {
        0 => vec![first; len],
        1 => (0..len).map(|at| first.wrapping_add(at)).collect(),
        2 => (usize::MAX - len..usize::MAX).collect(),
        _ => (0..len).collect(),
    }
}

/// Makes one thing wrong: a number more, at its place or at the end, or one again, or two that have
/// changed places.
pub fn spoil(random: &mut Random, plan: &Plan, tasks: &mut Vec<usize>) {
    let number = match random.below(2) {
        0 => random.below(plan.nodes.len()),
        _ => any_number(random, plan),
    };
    match random.below(4) {
        0 | 1 => {
            tasks.push(number);
            tasks.sort_unstable();
        }
        2 => tasks.push(number),
        _ if tasks.len() < 2 => tasks.extend(tasks.clone()),
        _ => {
            let last = tasks.len() - 1;
            tasks.swap(last - 1, last);
        }
    }
}
