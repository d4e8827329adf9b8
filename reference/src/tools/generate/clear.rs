//! Random plans that cannot go wrong, and near misses of them: large ones whose marks and verdicts
//! differ, where conditions drawn one by one would make nearly every literal clash.

use super::{orders, plan, Shape};
use crate::model::format::{
    Condition, Order, Plan, Sizes, ALL_OF, INCONDITION, OPTIONAL, POSTCONDITION, PRECONDITION, TASK,
};
use crate::tools::random::Random;

/// The sign that each flag has in every run, where there is one.
type Known = Vec<Option<u16>>;

/// A valid plan whose verdict is CLEAR: the children of each all-of group stand in one chain, and
/// tasks need only what is known by then. At most so many conditions and orders are drawn.
pub fn clear_plan(random: &mut Random, sizes: Sizes, shape: Shape) -> Plan {
    let bare = Sizes {
        conditions: 0,
        orders: 0,
        ..sizes
    };
    let mut plan = plan(random, bare, shape);
    plan.orders = chained(random, &plan, sizes.orders);
    let start = |flag| Some(u16::from(plan.starts_set(flag)));
    let mut walk = Walk {
        random,
        plan: &plan,
        picks: (sizes.conditions / (3 * plan.tasks().count())).min(8),
        conditions: Vec::new(),
    };
    walk.through(0, (0..sizes.flags).map(start).collect());
    let mut conditions = walk.conditions;
    conditions.sort_by_key(|condition| (condition.node, condition.value));
    plan.conditions = conditions;
    plan
}

/// A plan near such a one: an order taken away, a need or a start bit turned round, up to eight
/// times.
pub fn shaken_plan(random: &mut Random, sizes: Sizes, shape: Shape) -> Plan {
    let mut plan = clear_plan(random, sizes, shape);
    for _ in 0..random.within(1, 8) {
        match random.below(4) {
            0 => plan.start[0] ^= 1,
            1 => turn_need(random, &mut plan),
            _ if plan.orders.is_empty() => {}
            _ => {
                plan.orders.remove(random.below(plan.orders.len()));
            }
        }
    }
    plan
}

/// Gives a need the other sign.
fn turn_need(random: &mut Random, plan: &mut Plan) {
    let needs = plan.conditions.iter_mut();
    let mut needs: Vec<_> = needs.filter(|c| c.place() == PRECONDITION).collect();
    if !needs.is_empty() {
        let at = random.below(needs.len());
        needs[at].value ^= 64;
    }
    plan.conditions.sort_by_key(|c| (c.node, c.value));
}

/// The children of each all-of group in one chain, and other orders where there is room.
fn chained(random: &mut Random, plan: &Plan, most: usize) -> Vec<Order> {
    let mut chained: Vec<(u8, u8)> = Vec::new();
    for group in 0..plan.nodes.len() {
        if plan.nodes[group].kind == ALL_OF {
            let children: Vec<u8> = plan.children(group).map(|child| child as u8).collect();
            chained.extend(children.windows(2).map(|pair| (pair[0], pair[1])));
        }
    }
    let more = orders(random, plan, most.saturating_sub(chained.len()));
    chained.extend(more.iter().map(|order| (order.earlier, order.later)));
    chained.sort();
    chained.dedup();
    let order = |(earlier, later)| Order::new(earlier, later);
    chained.into_iter().map(order).collect()
}

/// The way through a plan whose all-of groups go from child to child.
struct Walk<'a> {
    random: &'a mut Random,
    plan: &'a Plan,
    /// The flags that each task may speak of.
    picks: usize,
    conditions: Vec<Condition>,
}

impl Walk<'_> {
    /// What is known after the node, from what is known before it.
    fn through(&mut self, node: usize, known: Known) -> Known {
        let children: Vec<usize> = self.plan.children(node).collect();
        match self.plan.nodes[node].kind {
            TASK => self.task(node, known),
            ALL_OF => {
                let children = children.into_iter();
                children.fold(known, |known, child| self.through(child, known))
            }
            kind => {
                let branches = children.into_iter();
                let ends = branches.map(|branch| self.through(branch, known.clone()));
                // After a skip all is as before.
                let skipped = (kind == OPTIONAL).then(|| known.clone());
                ends.chain(skipped)
                    .reduce(|one, other| common(&one, &other))
                    .expect("a group has children")
            }
        }
    }

    fn task(&mut self, task: usize, mut known: Known) -> Known {
        let mut flags: Vec<usize> = (0..known.len()).collect();
        self.random.shuffle(&mut flags);
        flags.truncate(self.picks);
        for flag in flags {
            if let (Some(sign), 0) = (known[flag], self.random.below(2)) {
                self.condition(task, PRECONDITION, flag, sign);
            }
            if self.random.below(2) == 0 {
                let [held, left] = [(); 2].map(|()| self.random.below(2) as u16);
                if self.random.below(2) == 0 {
                    self.condition(task, INCONDITION, flag, held);
                }
                self.condition(task, POSTCONDITION, flag, left);
                known[flag] = Some(left);
            }
        }
        known
    }

    fn condition(&mut self, task: usize, place: u16, flag: usize, sign: u16) {
        let condition = Condition::new(task as u8, place, flag as u16, sign);
        self.conditions.push(condition);
    }
}

/// What both know alike.
fn common(one: &Known, other: &Known) -> Known {
    let pairs = one.iter().zip(other);
    let alike = |(a, b): (&Option<u16>, &Option<u16>)| if a == b { *a } else { None };
    pairs.map(alike).collect()
}

#[cfg(test)]
mod tests {
    use super::*;
    use crate::model::rules::refusal;
    use crate::model::verdict::{verdict, Verdict};
    use crate::tools::generate::{LIMITS, SHAPES};

    #[test]
    fn is_valid_and_clear() {
        let mut random = Random::new(3);
        for nodes in (1..=40).chain([128]) {
            for shape in SHAPES {
                let sizes = Sizes { nodes, ..LIMITS };
                let clear = clear_plan(&mut random, sizes, shape);
                assert_eq!(refusal(&clear.bytes()), 0, "{clear:?}");
                assert_eq!(verdict(&clear), Verdict::Clear, "{clear:?}");
                let shaken = shaken_plan(&mut random, sizes, shape);
                assert_eq!(refusal(&shaken.bytes()), 0, "{shaken:?}");
            }
        }
    }
}
