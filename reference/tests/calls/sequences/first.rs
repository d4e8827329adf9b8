//! Which of several sequences is the first, told in other ways than by the reference.

use std::collections::BTreeMap;

use reference::model::format::{
    Condition, Order, Plan, Sizes, CLEAR, NO_PARENT, POSTCONDITION, PRECONDITION, SET,
};
use reference::model::sequence::{agrees, children, in_dictionary_order, under, word};
use reference::tools::generate::clear::{clear_plan, shaken_plan};
use reference::tools::generate::disordered::numbered_by;
use reference::tools::generate::{alike, dense_plan, Shape};
use reference::tools::random::Random;
use reference::tools::scenario::tally::Tally;

use super::{hidden, pairs};
use crate::blocked::promises::{self, verdict};

/// By the archive's own verdicts: of all sequences the first in dictionary order under which the
/// plan is CLEAR is found, and 24 says that there is none.
pub fn by_verdicts(tally: &mut Tally) {
    let mut random = Random::new(215);
    let mut met = Met::default();
    for nodes in (2..=12).chain([16, 24]) {
        for at in 0..150 {
            let sizes = Sizes {
                nodes,
                conditions: 9 * nodes,
                orders: nodes,
                flags: random.within(1, 3),
            };
            let plan = match at % 3 {
                0 => dense_plan(&mut random, nodes),
                1 => hidden(&mut random, clear_plan, sizes, Shape::EVEN),
                _ => hidden(&mut random, shaken_plan, sizes, Shape::EVEN),
            };
            if children(&plan).is_ok_and(|children| children.len() <= 5) {
                let mut clear = sequences(&plan);
                clear.retain(|list| agrees(&plan, list) && is_clear(tally, &plan, list));
                let want = clear.first().map_or(24, |first| word(first));
                assert_eq!(tally.sequence(&plan.bytes()), want, "{plan:?}");
                met.tell_apart(tally, &plan, &clear);
            }
        }
    }
    met.at_least(40, "by verdicts");
}

/// Children that keep others back, by an order of the plan or by what they need: at each place of
/// the sequence stands the lowest that none of those left keeps back.
pub fn kept_back(tally: &mut Tally) {
    let mut random = Random::new(216);
    let mut met = Met::default();
    for _ in 0..300 {
        let bare = bare_children(&mut random);
        let pairs = some_pairs(&mut random, &bare);
        let plan = with_pairs(&mut random, bare, &pairs);
        let want = lowest_first(&plan, &pairs);
        assert_eq!(tally.sequence(&plan.bytes()), word(&want), "{plan:?}");
        let mut clear = sequences(&plan);
        clear.retain(|list| pairs.iter().all(|&pair| has_in_order(list, pair)));
        met.tell_apart(tally, &plan, &clear);
    }
    met.at_least(100, "kept back");
}

/// All sequences of the root's children, in dictionary order.
fn sequences(plan: &Plan) -> Vec<Vec<usize>> {
    let children: Vec<usize> = plan.children(0).collect();
    in_dictionary_order(&children)
}

/// By the archive's verdict on the plan of these children alone, with the orders of the list, and
/// numbered by it so that they rise.
fn is_clear(tally: &mut Tally, plan: &Plan, list: &[usize]) -> bool {
    let mut rising = numbered_by(&under(plan, list), list);
    rising.orders.dedup();
    verdict(tally, &rising, &[]) == promises::CLEAR
}

/// How often the first sequence was another than some rule or search would find.
#[derive(Default)]
struct Met(BTreeMap<&'static str, usize>);

/// By what else one of several sequences might be put first.
type Key = fn(&Plan, &[usize]) -> Vec<Vec<u8>>;

const OTHER_KEYS: [(&str, Key); 4] = [
    ("by falling numbers", |_, list| {
        list.iter().map(|&node| vec![!(node as u8)]).collect()
    }),
    ("by names", |plan, list| {
        let name = |&node: &usize| plan.nodes[node].name.to_vec();
        list.iter().map(name).collect()
    }),
    ("by decimal digits", |_, list| {
        let digits = |node: &usize| node.to_string().into_bytes();
        list.iter().map(digits).collect()
    }),
    ("from the last place", |_, list| {
        list.iter().rev().map(|&node| vec![node as u8]).collect()
    }),
];

impl Met {
    fn count(&mut self, rule: &'static str, is_other: bool) {
        *self.0.entry(rule).or_default() += usize::from(is_other);
    }

    /// The sequences are all that are CLEAR, in dictionary order.
    fn tell_apart(&mut self, tally: &mut Tally, plan: &Plan, clear: &[Vec<usize>]) {
        let Some(first) = clear.first() else { return };
        self.count("rising, of several", clear.len() > 1 && !first.is_sorted());
        let straight_on = without_going_back(tally, plan);
        self.count("without going back", straight_on.is_none());
        assert!(straight_on.is_none_or(|list| list == *first), "{plan:?}");
        for (rule, key) in OTHER_KEYS {
            let other = clear.iter().min_by_key(|list| key(plan, list));
            self.count(rule, other != Some(first));
        }
    }

    fn at_least(&self, least: usize, name: &str) {
        println!("{name}, others than the first sequence: {:?}", self.0);
        assert_eq!(self.0.len(), 2 + OTHER_KEYS.len());
        assert!(self.0.values().all(|&count| count >= least));
    }
}

/// What a search comes to that takes the lowest child that may come next, and never goes back.
fn without_going_back(tally: &mut Tally, plan: &Plan) -> Option<Vec<usize>> {
    let mut left: Vec<usize> = plan.children(0).collect();
    let mut list = Vec::new();
    while !left.is_empty() {
        let next = (0..left.len()).find(|&at| {
            let mut rest = left.clone();
            let longer = [&list[..], &[rest.remove(at)]].concat();
            // The rest rises, as orders do: it may break one with a child of the list only.
            agrees(plan, &[&longer[..], &rest].concat()) && is_clear(tally, plan, &longer)
        })?;
        list.push(left.remove(next));
    }
    Some(list)
}

/// So many pairs seven children have.
const PAIRS: u16 = 21;

/// Three to seven children of an all-of root, tasks and groups of tasks, without conditions. There
/// are as many flags as pairs, or three times as many.
fn bare_children(random: &mut Random) -> Plan {
    let mut plan = Plan::new(random.pick(&[PAIRS, 3 * PAIRS])).all_of(b"ROOT", NO_PARENT);
    for _ in 0..random.within(3, 7) {
        let child = plan.nodes.len() as u8;
        plan = match random.below(4) {
            0 => plan.task(b"TASK", 0, 0),
            tasks => (0..tasks).fold(plan.all_of(b"GRP-", 0), |plan, _| {
                plan.task(b"TASK", child, 0)
            }),
        };
    }
    alike(random, &mut plan);
    plan
}

/// Pairs of children, of each of which the one is ahead of the other in some one sequence.
fn some_pairs(random: &mut Random, plan: &Plan) -> Vec<(usize, usize)> {
    let mut sequence: Vec<usize> = plan.children(0).collect();
    random.shuffle(&mut sequence);
    let rarity = random.within(2, 6);
    let mut pairs = pairs(&sequence);
    pairs.retain(|_| random.below(rarity) == 0);
    pairs
}

/// Of each pair the one keeps the other back: by an order if their numbers rise, or since it needs
/// a flag clear that the other leaves set.
fn with_pairs(random: &mut Random, mut plan: Plan, pairs: &[(usize, usize)]) -> Plan {
    let flags = (0..plan.flags).step_by(usize::from(plan.flags / PAIRS));
    for (flag, &(ahead, behind)) in flags.zip(pairs) {
        if ahead < behind && random.below(2) == 0 {
            plan = plan.order(ahead as u8, behind as u8);
            continue;
        }
        let mut task_under = |child| {
            let tasks: Vec<usize> = plan.tasks_under(child).collect();
            random.pick(&tasks) as u8
        };
        let needs = Condition::new(task_under(ahead), PRECONDITION, flag, CLEAR);
        let leaves = Condition::new(task_under(behind), POSTCONDITION, flag, SET);
        plan.conditions.extend([needs, leaves]);
    }
    let by_node = |condition: &Condition| (condition.node, condition.value);
    plan.conditions.sort_by_key(by_node);
    let by_earlier = |order: &Order| (order.earlier, order.later);
    plan.orders.sort_by_key(by_earlier);
    plan
}

fn lowest_first(plan: &Plan, pairs: &[(usize, usize)]) -> Vec<usize> {
    let mut left: Vec<usize> = plan.children(0).collect();
    let mut list = Vec::new();
    while !left.is_empty() {
        let keeps_back = |child, (ahead, behind)| behind == child && left.contains(&ahead);
        let is_free = |&child: &usize| !pairs.iter().any(|&pair| keeps_back(child, pair));
        let next = left.iter().position(is_free);
        list.push(left.remove(next.expect("no pairs in a circle")));
    }
    list
}

fn has_in_order(list: &[usize], (ahead, behind): (usize, usize)) -> bool {
    let place = |node| list.iter().position(|&other| other == node);
    place(ahead) < place(behind)
}
