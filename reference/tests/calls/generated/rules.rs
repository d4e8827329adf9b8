//! How often another rule would generate another plan; 02's own, by the numbers of its draws,
//! never does.

use std::collections::BTreeMap;

use reference::model::format::{Plan, NO_PARENT};
use reference::model::generated::Recipe;
use reference::tools::random::Random;
use reference::tools::scenario::generated::passing;
use reference::tools::scenario::tally::Tally;

use super::generated;

/// A rule without a state: draws are numbered from 0, and so are groups and tasks.
#[derive(Clone, Copy)]
struct Rule {
    /// What a draw gives before the remainder, by the seed and its number.
    drawn: Drawn,
    /// Which draw is for the kind of this group, and which for its order before the next.
    kind: OfGroup,
    order: OfGroup,
    /// What orders it.
    ordered: u64,
    /// Which draws are for a task's minutes, its flag, and the signs of its need and its leaving.
    task: OfTask,
    /// The group that it goes under.
    under: OfGroup,
}

type Drawn = fn(u64, u64) -> u64;
type OfGroup = fn(Sizes, u64) -> u64;
type OfTask = fn(Sizes, u64) -> [u64; 4];

/// 02's g and t.
#[derive(Clone, Copy)]
struct Sizes {
    g: u64,
    t: u64,
}

/// 02's rule.
const RIGHT: Rule = Rule {
    drawn: |seed, n| state(seed, n + 1) / 65_536,
    kind: |_, group| group,
    order: |of, group| of.g + 4 * of.t + group,
    ordered: 1,
    task: |of, task| from(of.g + 4 * task),
    under: |of, task| task % of.g,
};

/// The state after so many draws.
fn state(seed: u64, draws: u64) -> u64 {
    (seed + draws * 2_654_435_769) % (1 << 32)
}

/// Four numbers from this one on.
fn from(first: u64) -> [u64; 4] {
    [0, 1, 2, 3].map(|further| first + further)
}

/// Other numbers to draw from.
const DRAWN: [(&str, Drawn); 5] = [
    ("before it is added", |seed, n| state(seed, n) / 65_536),
    ("wraps at 2 to the 31st", |seed, n| {
        state(seed, n + 1) % (1 << 31) / 65_536
    }),
    ("never wraps", |seed, n| {
        (seed + (n + 1) * 2_654_435_769) / 65_536
    }),
    ("does not carry", |seed, n| {
        (seed / 65_536 + state(0, n + 1) / 65_536) % 65_536
    }),
    ("the lower half", |seed, n| state(seed, n + 1) % 65_536),
];

/// Other draws for a task.
const TASKS: [(&str, OfTask); 4] = [
    ("leaving before need", |of, task| {
        let [minutes, flag, one, other] = (RIGHT.task)(of, task);
        [minutes, flag, other, one]
    }),
    ("flag before minutes", |of, task| {
        let [one, other, need, leaving] = (RIGHT.task)(of, task);
        [other, one, need, leaving]
    }),
    ("one sign for both", |of, task| {
        let [minutes, flag, sign, _] = (RIGHT.task)(of, task);
        [minutes, flag, sign, sign]
    }),
    ("all minutes first", |of, task| {
        let [flag, need, leaving, _] = from(of.g + of.t + 3 * task);
        [of.g + task, flag, need, leaving]
    }),
];

/// Other groups for a task.
const UNDER: [(&str, OfGroup); 3] = [
    ("task by task from the second", |of, task| (task + 1) % of.g),
    ("the first tasks under the first", |of, task| {
        task * of.g / of.t
    }),
    ("the others under the last", |of, task| task.min(of.g - 1)),
];

/// Wrong rules, each in one thing.
fn wrong() -> Vec<(&'static str, Rule)> {
    let drawn = DRAWN.map(|(name, drawn)| (name, Rule { drawn, ..RIGHT }));
    let tasks = TASKS.map(|(name, task)| (name, Rule { task, ..RIGHT }));
    let under = UNDER.map(|(name, under)| (name, Rule { under, ..RIGHT }));
    let tasks_first = Rule {
        kind: |of, group| 4 * of.t + group,
        task: |_, task| from(4 * task),
        ..RIGHT
    };
    let orders_first = Rule {
        order: |of, group| of.g + group,
        task: |of, task| from(2 * of.g - 1 + 4 * task),
        ..RIGHT
    };
    let ordered = Rule {
        ordered: 0,
        ..RIGHT
    };
    let root_too = Rule {
        drawn: |seed, n| (RIGHT.drawn)(seed, n + 1),
        ..RIGHT
    };
    let others = [
        ("tasks before groups", tasks_first),
        ("orders before tasks", orders_first),
        ("0 orders", ordered),
        ("the root draws too", root_too),
    ];
    let all = drawn.into_iter().chain(tasks).chain(under).chain(others);
    all.collect()
}

impl Rule {
    fn plan(&self, recipe: Recipe) -> Plan {
        let [g, t] = [recipe.groups, recipe.tasks].map(|size| size as u64);
        let of = Sizes { g, t };
        let draw = |n, limit| ((self.drawn)(u64::from(recipe.seed), n) % limit) as u16;
        let mut plan = Plan::new(8).all_of(b"SOAK", NO_PARENT);
        for group in 0..g {
            let kind = 1 + draw((self.kind)(of, group), 2) as u8;
            plan = plan.node(&name(b'G', 1 + group), 0, kind, 0);
        }
        for task in 0..t {
            let [minutes, flag, need, leaving] = (self.task)(of, task);
            let group = 1 + (self.under)(of, task) as u8;
            plan = plan.task(&name(b'T', 1 + g + task), group, draw(minutes, 60));
            let flag = draw(flag, 8);
            plan = plan.pre(flag, draw(need, 2)).post(flag, draw(leaving, 2));
        }
        let is_ordered = |&group: &u64| {
            let drawn = draw((self.order)(of, group), 2);
            u64::from(drawn) == self.ordered
        };
        (0..g - 1).filter(is_ordered).fold(plan, |plan, group| {
            plan.order(1 + group as u8, 2 + group as u8)
        })
    }
}

fn name(letter: u8, number: u64) -> [u8; 4] {
    let digit = |unit: u64| b'0' + (number / unit % 10) as u8;
    [letter, digit(100), digit(10), digit(1)]
}

pub fn told_apart(tally: &mut Tally) {
    let mut random = Random::new(245);
    let wrong = wrong();
    let mut others = BTreeMap::new();
    for _ in 0..1_000 {
        let recipe = passing(&mut random);
        let plan = generated(tally, &mut random, recipe);
        assert_eq!(RIGHT.plan(recipe).bytes(), plan, "{recipe:?}");
        for (name, rule) in &wrong {
            let is_other = rule.plan(recipe).bytes() != plan;
            *others.entry(name).or_default() += usize::from(is_other);
        }
    }
    println!("generated plans, by other rules: {others:?}");
    let least = others.values().min();
    assert!(others.len() == wrong.len() && least.is_some_and(|&least: &usize| least >= 400));
}
