//! Generated plans (02, 110: books for the soak bench): from a seed and two sizes the same bytes in
//! every lab.

use crate::model::format::{
    Condition, Node, Order, Plan, ALL_OF, NO_PARENT, POSTCONDITION, PRECONDITION, TASK,
};

/// So many groups there may be under the root, and so many tasks.
pub const MOST: usize = 60;

/// What a plan is generated from. The numbers may be any.
#[derive(Clone, Copy, Debug, PartialEq, Eq)]
pub struct Recipe {
    pub seed: u32,
    /// 02: g.
    pub groups: usize,
    /// 02: t.
    pub tasks: usize,
}

impl Recipe {
    pub fn new(seed: u32, groups: usize, tasks: usize) -> Recipe {
        Recipe {
            seed,
            groups,
            tasks,
        }
    }

    /// The plan, or refusal 30.
    pub fn plan(self) -> Result<Plan, u32> {
        if !(1..=MOST).contains(&self.groups) || !(self.groups..=MOST).contains(&self.tasks) {
            return Err(30);
        }
        let mut draws = Draws::new(self.seed);
        let mut plan = root();
        for _ in 0..self.groups {
            add_group(&mut plan, &mut draws);
        }
        for task in 0..self.tasks {
            add_task(&mut plan, &mut draws, 1 + task % self.groups);
        }
        for group in 1..self.groups as u8 {
            if draws.below(2) == 1 {
                plan.orders.push(Order::new(group, group + 1));
            }
        }
        Ok(plan)
    }
}

/// Numbers drawn one after another.
struct Draws {
    /// Below 2 to the 32nd.
    state: u64,
}

impl Draws {
    fn new(seed: u32) -> Draws {
        Draws {
            state: u64::from(seed),
        }
    }

    /// The next one, below this limit.
    fn below(&mut self, limit: u16) -> u16 {
        self.state = (self.state + 2_654_435_769) % (1 << 32);
        (self.state / 65_536) as u16 % limit
    }
}

/// The root alone.
fn root() -> Plan {
    let root = Node {
        name: *b"SOAK",
        parent: NO_PARENT,
        kind: ALL_OF,
        minutes: 0,
    };
    Plan {
        flags: 8,
        start: [0; 8],
        nodes: vec![root],
        conditions: Vec::new(),
        orders: Vec::new(),
    }
}

/// Adds a group under the root.
fn add_group(plan: &mut Plan, draws: &mut Draws) {
    let group = Node {
        name: name('G', plan.nodes.len()),
        parent: 0,
        kind: 1 + draws.below(2) as u8,
        minutes: 0,
    };
    plan.nodes.push(group);
}

/// Adds a task under this group. It needs a flag and leaves the same flag.
fn add_task(plan: &mut Plan, draws: &mut Draws, group: usize) {
    let number = plan.nodes.len();
    let task = Node {
        name: name('T', number),
        parent: group as u8,
        kind: TASK,
        minutes: draws.below(60),
    };
    plan.nodes.push(task);
    let flag = draws.below(8);
    for place in [PRECONDITION, POSTCONDITION] {
        let sign = draws.below(2);
        let condition = Condition::new(number as u8, place, flag, sign);
        plan.conditions.push(condition);
    }
}

/// The letter, and the number in three digits.
fn name(letter: char, number: usize) -> [u8; 4] {
    let name = format!("{letter}{number:03}").into_bytes();
    name.try_into().expect("a number of three digits")
}

/// What the call returns: 256 and the length of the plan, which is then at the beginning of the
/// output, with the rest as it was; or 30 or 15, with the output as it was.
pub fn answer(recipe: Recipe, out: &mut [u8]) -> u32 {
    match recipe.plan().and_then(|plan| plan.write(out)) {
        Ok(len) => 256 + len as u32,
        Err(number) => number,
    }
}

#[cfg(test)]
mod tests {
    use super::*;
    use crate::model::format::{ANY_OF, CLEAR, SET};
    use crate::model::rules::refusal;

    /// From seed 0 the states are 9E3779B9 in hexadecimal and its multiples, 3C6EF372, DAA66D2B,
    /// 78DDE6E4 and 1715609D. Of these the upper halves count.
    #[test]
    fn draws() {
        let drawn = |seed, limit| {
            let mut draws = Draws::new(seed);
            [(); 5].map(|()| draws.below(limit))
        };
        assert_eq!(drawn(0, u16::MAX), [0x9E37, 0x3C6E, 0xDAA6, 0x78DD, 0x1715]);
        assert_eq!(drawn(0, 60), [3, 50, 54, 41, 29]);
        assert_eq!(drawn(0, 8), [7, 6, 6, 5, 5]);
        assert_eq!(drawn(0, 2), [1, 0, 0, 1, 1]);
        // From the seed before 0 each state is one lower. The lower half counts where it carries:
        // with 79B9 it does so from 8647 on.
        assert_eq!(drawn(u32::MAX, 60), [3, 50, 54, 41, 29]);
        assert_eq!(drawn(0x8646, 60)[0], 3);
        assert_eq!(drawn(0x8647, 60)[0], 4);
        // From 61C88647 on the first sum is 2 to the 32nd or more.
        assert_eq!(drawn(0x61C8_8646, u16::MAX - 1)[0], 1);
        assert_eq!(drawn(0x61C8_8647, u16::MAX - 1)[0], 0);
    }

    #[test]
    fn one_task() {
        let plan = Recipe::new(0, 1, 1).plan().unwrap();
        let node = |name: &[u8; 4], parent, kind, minutes| Node {
            name: *name,
            parent,
            kind,
            minutes,
        };
        let want = Plan {
            flags: 8,
            start: [0; 8],
            nodes: vec![
                node(b"SOAK", NO_PARENT, ALL_OF, 0),
                node(b"G001", 0, ANY_OF, 0),
                node(b"T002", 1, TASK, 50),
            ],
            conditions: vec![
                Condition::new(2, PRECONDITION, 6, SET),
                Condition::new(2, POSTCONDITION, 6, SET),
            ],
            orders: Vec::new(),
        };
        assert_eq!(plan, want);
        for (seed, want) in [(7_000, [CLEAR, SET]), (100_000, [SET, CLEAR])] {
            let other = Recipe::new(seed, 1, 1).plan().unwrap();
            let signs = other.conditions.iter().map(Condition::sign);
            assert_eq!(signs.collect::<Vec<_>>(), want, "{seed}");
        }
    }

    /// 30 at each limit, 15 below the length, and the bytes after the plan.
    #[test]
    fn calls() {
        for (groups, tasks) in [(0, 0), (0, 1), (1, 0), (2, 1), (1, 61), (61, 61), (60, 59)] {
            let mut out = [7; 2_000];
            assert_eq!(answer(Recipe::new(1, groups, tasks), &mut out), 30);
            assert_eq!(answer(Recipe::new(1, groups, tasks), &mut []), 30);
            assert_eq!(out, [7; 2_000]);
        }
        for (groups, tasks) in [(1, 1), (1, 60), (60, 60)] {
            let recipe = Recipe::new(1, groups, tasks);
            let plan = recipe.plan().unwrap().bytes();
            assert_eq!(refusal(&plan), 0);
            let mut out = vec![7; plan.len() + 3];
            assert_eq!(answer(recipe, &mut out[..plan.len() - 1]), 15);
            assert_eq!(out, vec![7; plan.len() + 3]);
            assert_eq!(answer(recipe, &mut out), 256 + plan.len() as u32);
            assert_eq!(out, [&plan[..], &[7; 3]].concat());
        }
    }
}
