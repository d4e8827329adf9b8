//! On random small plans: what CLEAR and DOOMED say of sequences, which is the first, and the
//! verdict on plans whose orders do not rise.

use reference::model::format::{Order, Plan, Sizes};
use reference::model::marks::marks;
use reference::model::runs;
use reference::model::sequence::{agrees, children, in_dictionary_order, read, under, word};
use reference::model::verdict::{verdict, Verdict};
use reference::tools::generate::clear::clear_plan;
use reference::tools::generate::{dense_plan, Shape, LIMITS};
use reference::tools::random::Random;

use super::returned;
use crate::shown;

/// Plans with an all-of root of at most so many children, and the sequences that agree with their
/// orders, in dictionary order.
fn for_each_plan(seed: u64, most: usize, mut check: impl FnMut(&Plan, &[Vec<usize>])) {
    let mut random = Random::new(seed);
    for nodes in 2..=9 {
        for _ in 0..300 {
            let plan = dense_plan(&mut random, nodes);
            let Ok(children) = children(&plan) else {
                continue;
            };
            if children.len() <= most {
                let mut agreeing = in_dictionary_order(&children);
                agreeing.retain(|list| agrees(&plan, list));
                check(&plan, &agreeing);
            }
        }
    }
}

/// The marks of the root under a sequence, by rules and by runs.
#[test]
fn rules_and_runs() {
    let mut sequences = 0;
    for_each_plan(201, 4, |plan, agreeing| {
        for list in agreeing {
            let ordered = under(plan, list);
            let by_runs = runs::shown(&ordered, 0);
            for (rules, runs) in marks(&ordered)[0].iter().zip(by_runs) {
                let place = || format!("under {list:?} of\n{}", shown(plan));
                assert_eq!(rules.in_order()[..7], runs.marks, "{}", place());
            }
            sequences += 1;
        }
    });
    println!("{sequences} sequences");
    assert!(sequences > 2_500);
}

/// A CLEAR plan is CLEAR under every sequence, a DOOMED one under none; an OPEN one may be CLEAR
/// under all, some or none. The first is returned.
#[test]
fn clear_and_doomed() {
    let mut counts = [[0; 3]; 3];
    for_each_plan(202, 5, |plan, agreeing| {
        let is_clear = |list: &&Vec<usize>| verdict(&under(plan, list)) == Verdict::Clear;
        let clear: Vec<_> = agreeing.iter().filter(is_clear).collect();
        let first = clear.first().map_or(24, |first| word(first));
        assert_eq!(returned(&plan.bytes()), first, "{}", shown(plan));
        let how_many = match clear.len() {
            0 => 0,
            found if found < agreeing.len() => 1,
            _ => 2,
        };
        counts[verdict(plan) as usize][how_many] += 1;
    });
    println!("none, some, all of CLEAR, DOOMED, OPEN: {counts:?}");
    let [clear, doomed, open] = counts;
    assert_eq!(
        (clear[..2].to_vec(), doomed[1..].to_vec()),
        (vec![0; 2], vec![0; 2])
    );
    let met = [clear[2], doomed[0], open[0], open[1], open[2]];
    assert!(met.iter().all(|&count| count > 50), "{counts:?}");
}

/// One more order, with which the first sequence agrees, leaves it the first. Any other puts a
/// later one in its place, or none.
#[test]
fn one_more_order() {
    let [mut kept, mut later, mut none] = [0; 3];
    for_each_plan(204, 7, |plan, _| {
        let Some(first) = read(returned(&plan.bytes())) else {
            return;
        };
        for ordered in with_one_more(plan) {
            let place = || format!("{:?} added to\n{}", ordered.orders, shown(plan));
            match read(returned(&ordered.bytes())) {
                found if agrees(&ordered, &first) => {
                    assert_eq!(found.as_ref(), Some(&first), "{}", place());
                    kept += 1;
                }
                Some(found) => {
                    assert!(found > first, "{}", place());
                    later += 1;
                }
                None => none += 1,
            }
        }
    });
    println!("kept {kept}, a later one {later}, none {none}");
    assert!([kept, later, none].iter().all(|&count| count > 50));
}

/// The plan with any one order more between the root's children.
fn with_one_more(plan: &Plan) -> Vec<Plan> {
    let children: Vec<usize> = plan.children(0).collect();
    let pairs = children.iter().flat_map(|&earlier| {
        let higher = children.iter().filter(move |&&later| later > earlier);
        higher.map(move |&later| Order::new(earlier as u8, later as u8))
    });
    let added = pairs.filter(|order| !plan.orders.contains(order));
    let ordered = added.map(|order| {
        let mut plan = plan.clone().order(order.earlier, order.later);
        plan.orders
            .sort_by_key(|order| (order.earlier, order.later));
        plan
    });
    ordered.collect()
}

/// Large CLEAR plans never meet 24.
#[test]
fn large_clear_plans() {
    let mut random = Random::new(203);
    let mut found = 0;
    for nodes in [8, 20, 60, 128] {
        for shape in [Shape::SEVEN, Shape::EVEN, Shape::DEEP] {
            let sizes = Sizes { nodes, ..LIMITS };
            for _ in 0..10 {
                let plan = clear_plan(&mut random, sizes, shape);
                assert_eq!(verdict(&plan), Verdict::Clear);
                let word = returned(&plan.bytes());
                assert!(word == 23 || word > 255, "{word}");
                found += usize::from(word > 255);
            }
        }
    }
    assert!(found > 40, "{found}");
}
