//! Other rules about when a merged plan is CLEAR.

use reference::model::format::{Plan, INCONDITION, POSTCONDITION, PRECONDITION};
use reference::model::literal::Literal;
use reference::model::marks::{marks, Marks};
use reference::model::verdict::is_clear;
use reference::tools::generate::dense_plan;
use reference::tools::generate::pairs::agree;
use reference::tools::random::Random;
use reference::tools::scenario::merged::Pair;
use reference::tools::scenario::tally::Tally;

use super::super::clear::any_two;
use super::super::merged;
use super::Others;

/// Whether the merged plan is CLEAR by it.
type Rule = fn(&[Plan; 2]) -> bool;

const NEED: &[u16] = &[PRECONDITION];
const HOLD: &[u16] = &[INCONDITION];
const LEAVING: &[u16] = &[POSTCONDITION];
const ASKED: &[u16] = &[PRECONDITION, INCONDITION];
const DONE: &[u16] = &[INCONDITION, POSTCONDITION];
const ANY: &[u16] = &[PRECONDITION, INCONDITION, POSTCONDITION];

const RIGHT: Rule = |plans| both_clear(plans) && !meet(plans, ASKED, DONE) && !opposed(plans);

/// Rules that say otherwise.
const WRONG: [(&str, Rule); 14] = [
    ("both are CLEAR, no more", both_clear),
    ("nothing collides, no more", |plans| {
        !meet(plans, ASKED, DONE) && !opposed(plans)
    }),
    ("needed is exposed, and leavings are no matter", |plans| {
        both_clear(plans) && !exposed_broken(plans) && !meet(plans, HOLD, DONE)
    }),
    ("left is left at the end", |plans| {
        let left = |plan: &Plan| marked(plan, |marks| marks.may_post);
        let [first, second] = plans;
        let broken = |one: &Plan, other: &Plan| {
            let left = left(one);
            left.iter().any(|left| has(other, ANY, left.opposite()))
        };
        both_clear(plans)
            && !broken(first, second)
            && !broken(second, first)
            && !meet(plans, ASKED, HOLD)
    }),
    ("the first asks nothing", |plans| {
        both_clear(plans) && !asks(&plans[1], &plans[0]) && !opposed(plans)
    }),
    ("the second asks nothing", |plans| {
        both_clear(plans) && !asks(&plans[0], &plans[1]) && !opposed(plans)
    }),
    ("needs ask nothing", |plans| {
        both_clear(plans) && !meet(plans, HOLD, DONE) && !opposed(plans)
    }),
    ("holds ask nothing", |plans| {
        both_clear(plans) && !meet(plans, NEED, DONE) && !opposed(plans)
    }),
    ("holds break nothing", |plans| {
        both_clear(plans) && !meet(plans, ASKED, LEAVING) && !opposed(plans)
    }),
    ("leavings break nothing", |plans| {
        both_clear(plans) && !meet(plans, ASKED, HOLD) && !opposed(plans)
    }),
    ("opposite leavings are no matter", |plans| {
        both_clear(plans) && !meet(plans, ASKED, DONE)
    }),
    ("the same sign collides", |plans| {
        let [first, second] = plans;
        both_clear(plans) && !literals().any(|own| has(first, ANY, own) && has(second, ANY, own))
    }),
    ("every flag of both collides", |plans| {
        let [first, second] = plans;
        let on = |plan: &Plan, own: Literal| has(plan, ANY, own) || has(plan, ANY, own.opposite());
        both_clear(plans) && !literals().any(|own| on(first, own) && on(second, own))
    }),
    ("needs of false literals collide", |plans| {
        let [first, second] = plans;
        let set = |plan: &Plan, own: Literal| plan.starts_set(own.flag.into()) == (own.sign == 1);
        let bad = |plan: &Plan| literals().any(|own| has(plan, NEED, own) && !set(plan, own));
        RIGHT(plans) && !bad(first) && !bad(second)
    }),
];

/// Rules that say the same. What is needed in a CLEAR plan is exposed there or left there too. Of
/// two opposite literals one is false at the start: where that one is needed in a CLEAR plan, it is
/// left there too. And two tasks that hold opposite literals both leave the flag: opposite ways, or
/// one of them opposite to what the other holds.
const SAME: [(&str, Rule); 3] = [
    ("needed is exposed", |plans| {
        both_clear(plans) && !exposed_broken(plans) && !meet(plans, HOLD, DONE) && !opposed(plans)
    }),
    ("opposite needs collide", |plans| {
        RIGHT(plans) && !meet(plans, NEED, NEED)
    }),
    ("holds do not break holds", |plans| {
        both_clear(plans)
            && !meet(plans, NEED, DONE)
            && !meet(plans, HOLD, LEAVING)
            && !opposed(plans)
    }),
];

/// Whether what may be needed at the root of one is held or left opposite in the other.
fn exposed_broken([first, second]: &[Plan; 2]) -> bool {
    let broken = |one: &Plan, other: &Plan| {
        let mut needed = marked(one, |marks| marks.may_pre).into_iter();
        needed.any(|need| has(other, DONE, need.opposite()))
    };
    broken(first, second) || broken(second, first)
}

fn both_clear([first, second]: &[Plan; 2]) -> bool {
    is_clear(first) && is_clear(second)
}

/// Of the two flags that these plans may have.
fn literals() -> impl Iterator<Item = Literal> {
    (0..2).flat_map(|flag| [0, 1].map(|sign| Literal::new(flag, sign)))
}

/// Whether a task has the literal at one of these places.
fn has(plan: &Plan, places: &[u16], literal: Literal) -> bool {
    plan.tasks()
        .any(|task| places.iter().any(|&place| plan.has(task, place, literal)))
}

/// Whether a literal at one of these places in either plan is, opposite, at one of those in the
/// other.
fn meet([first, second]: &[Plan; 2], these: &[u16], those: &[u16]) -> bool {
    literals().any(|own| {
        has(first, these, own) && has(second, those, own.opposite())
            || has(second, these, own) && has(first, those, own.opposite())
    })
}

/// Whether what the one asks is broken by the other.
fn asks(one: &Plan, other: &Plan) -> bool {
    literals().any(|own| has(one, ASKED, own) && has(other, DONE, own.opposite()))
}

fn opposed(plans: &[Plan; 2]) -> bool {
    meet(plans, LEAVING, LEAVING)
}

/// The literals with this mark at the root.
fn marked(plan: &Plan, mark: fn(&Marks) -> bool) -> Vec<Literal> {
    let root = &marks(plan)[0];
    let marked = plan.literals().zip(root).filter(|(_, marks)| mark(marks));
    marked.map(|(literal, _)| literal).collect()
}

/// A plan of up to four nodes, or a lone task or two, mostly CLEAR.
fn any_small(random: &mut Random) -> Plan {
    let mut draw = || match random.below(4) {
        0 => dense_plan(random, 4),
        _ => any_two(random),
    };
    let drawn = [(); 3].map(|()| draw());
    let clear = drawn.iter().find(|plan| is_clear(plan));
    clear.unwrap_or(&drawn[0]).clone()
}

pub fn told_apart(tally: &mut Tally) {
    let mut random = Random::new(276);
    let (mut others, mut same) = (Others::default(), Others::default());
    for _ in 0..12_000 {
        let [one, mut other] = [(); 2].map(|()| any_small(&mut random));
        agree(&one, &mut other);
        let plans = [one, other];
        let pair = Pair::of(&plans);
        merged(tally, &mut random, &pair);
        let clear = pair.judged().is_clear();
        assert_eq!(RIGHT(&plans), clear, "{plans:?}");
        for (name, rule) in WRONG {
            others.count(name, rule(&plans) != clear);
        }
        for (name, rule) in SAME {
            same.count(name, rule(&plans) != clear);
        }
    }
    others.assert("CLEAR of merged plans", WRONG.len(), 20);
    assert!(same.0.values().all(|&count| count == 0));
}
