//! What 02 says of every generated plan, by its fields.

use std::collections::BTreeSet;

use reference::model::format::{
    Plan, ALL_OF, ANY_OF, NO_PARENT, POSTCONDITION, PRECONDITION, TASK,
};
use reference::model::generated::{Recipe, MOST};
use reference::model::rules::refusal;
use reference::tools::random::Random;
use reference::tools::scenario::generated::{any_seed, passing};

use super::generated;
use crate::{fields, verdict};

/// By recipes with each number of groups, by small ones and by any.
fn for_each_plan(seed: u64, mut check: impl FnMut(Recipe, &Plan)) {
    let mut random = Random::new(seed);
    let full = (1..=MOST).map(|groups| Recipe::new(any_seed(&mut random), groups, MOST));
    let mut recipes: Vec<Recipe> = full.collect();
    for _ in 0..200 {
        let (groups, more) = (random.within(1, 3), random.below(3));
        let small = Recipe::new(any_seed(&mut random), groups, groups + more);
        recipes.extend([small, passing(&mut random)]);
    }
    for recipe in recipes {
        let bytes = generated(recipe);
        assert_eq!(refusal(&bytes), 0, "{recipe:?}");
        check(recipe, &fields(&bytes));
    }
}

/// Names, parents and kinds, and no flag set.
#[test]
fn nodes() {
    for_each_plan(251, |recipe, plan| {
        let Recipe { groups, tasks, .. } = recipe;
        assert_eq!((plan.flags, plan.start), (8, [0; 8]));
        assert_eq!(plan.nodes.len(), 1 + groups + tasks);
        for (number, node) in plan.nodes.iter().enumerate() {
            let (name, parent, kinds) = match number {
                0 => ("SOAK".to_string(), NO_PARENT, &[ALL_OF][..]),
                _ if number <= groups => (format!("G{number:03}"), 0, &[ALL_OF, ANY_OF][..]),
                _ => {
                    let group = 1 + (number - 1 - groups) % groups;
                    (format!("T{number:03}"), group as u8, &[TASK][..])
                }
            };
            assert_eq!((&node.name[..], node.parent), (name.as_bytes(), parent));
            assert!(kinds.contains(&node.kind), "{node:?}");
            assert!(node.minutes < if node.kind == TASK { 60 } else { 1 });
        }
    });
}

/// A need and a leaving of each task, both on one flag; orders of some groups before the next.
#[test]
fn conditions_and_orders() {
    for_each_plan(252, |recipe, plan| {
        let (first, tasks) = (1 + recipe.groups, recipe.tasks);
        assert_eq!(plan.conditions.len(), 2 * tasks);
        for (task, pair) in (first..).zip(plan.conditions.chunks(2)) {
            assert!(pair.iter().all(|own| usize::from(own.node) == task));
            let places = [pair[0].place(), pair[1].place()];
            assert_eq!(places, [PRECONDITION, POSTCONDITION]);
            assert_eq!(pair[0].flag(), pair[1].flag());
            assert!(pair[0].flag() < 8);
        }
        for order in &plan.orders {
            assert_eq!(order.later, order.earlier + 1);
            assert!((1..recipe.groups).contains(&usize::from(order.earlier)));
        }
    });
}

/// Every kind of group is met, ordered before the next and not, and every number of minutes, flag
/// and verdict. What is drawn from rises by 9E37 in hexadecimal and in two draws by 3C6E, or by one
/// more where the lower half carries: so a need whose sign is the flag's parity has a carry, and
/// then the leaving has the other sign. All other pairs of signs are met.
#[test]
fn what_is_met() {
    let (mut kinds, mut minutes) = (BTreeSet::new(), BTreeSet::new());
    let (mut pairs, mut verdicts) = (BTreeSet::new(), [0; 3]);
    for_each_plan(253, |_, plan| {
        let ordered: BTreeSet<u8> = plan.orders.iter().map(|order| order.earlier).collect();
        let kind = |group: usize| (plan.nodes[group].kind, ordered.contains(&(group as u8)));
        kinds.extend(plan.children(0).map(kind));
        minutes.extend(plan.tasks().map(|task| plan.nodes[task].minutes));
        let signs = plan.conditions.chunks(2);
        pairs.extend(signs.map(|pair| (pair[0].flag(), [pair[0].sign(), pair[1].sign()])));
        verdicts[verdict(&plan.bytes()) as usize - 128] += 1;
    });
    println!("CLEAR, DOOMED, OPEN: {verdicts:?}");
    assert_eq!((kinds.len(), minutes.len()), (4, 60));
    assert!(pairs.iter().all(|&(flag, signs)| signs != [flag % 2; 2]));
    assert_eq!(pairs.len(), 8 * 3);
    assert!(verdicts.iter().all(|&count| count > 20));
}
