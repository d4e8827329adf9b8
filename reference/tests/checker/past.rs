//! Returns and states worked out anew from the plan and the calls accepted so far, never from a
//! state's bytes.

use reference::model::calls::Call;
use reference::model::events::Event::{self, Finish, Skip, Start};
use reference::model::format::{
    Condition, Plan, ALL_OF, ANY_OF, INCONDITION, OPTIONAL, POSTCONDITION, PRECONDITION, TASK,
};

use crate::shown;

/// A plan and the events of the calls that were accepted, the latest last. Of finishes together
/// each is one; their order makes no difference.
pub struct Past<'a> {
    plan: &'a Plan,
    blocked: &'a [usize],
    accepted: Vec<Event>,
}

impl<'a> Past<'a> {
    /// Before any call, all of which are to have these nodes blocked.
    pub fn new(plan: &'a Plan, blocked: &'a [usize]) -> Past<'a> {
        Past {
            plan,
            blocked,
            accepted: Vec::new(),
        }
    }

    /// Where a comparison failed.
    pub fn at(&self, call: &Call) -> String {
        let (accepted, blocked) = (&self.accepted, self.blocked);
        let plan = shown(self.plan);
        format!("{call:?} with {accepted:?} and {blocked:?} blocked on\n{plan}")
    }

    /// 0, and the call is taken in; or the refusal that applies first.
    pub fn returns(&mut self, call: &Call) -> u32 {
        let (returned, events) = match call {
            Call::Event(event) => (self.returns_of_event(*event), vec![*event]),
            Call::FinishTogether(tasks) => {
                let finishes = tasks.iter().map(|&task| Finish(task));
                (self.returns_together(tasks), finishes.collect())
            }
            _ => panic!("{call:?} is no call of a list"),
        };
        if returned == 0 {
            self.accepted.extend(events);
        }
        returned
    }

    fn returns_of_event(&self, event: Event) -> u32 {
        let node = event.node();
        let kind = self.plan.nodes.get(node).map(|node| node.kind);
        match event {
            Start(_) | Finish(_) if kind != Some(TASK) => 17,
            Skip(_) if kind != Some(OPTIONAL) => 27,
            Start(_) if self.has(Start(node)) => 18,
            Finish(_) if !self.running(node) => 18,
            Skip(_) if self.happened_in(node) => 18,
            Start(_) | Skip(_) if self.absent(node) || self.chosen_otherwise(node) => 19,
            Start(_) | Skip(_) if self.too_early(node) => 20,
            Start(_) if !self.all_true(node) => 21,
            _ if self.breaks(&self.written(event), &[node]) => 22,
            _ => 0,
        }
    }

    fn returns_together(&self, tasks: &[usize]) -> u32 {
        let mut rising = tasks.to_vec();
        rising.sort_unstable();
        rising.dedup();
        let is_task = |task: &usize| *task < self.plan.nodes.len() && self.is_task(*task);
        if tasks.is_empty() || rising != tasks {
            return 25;
        }
        if !tasks.iter().all(is_task) {
            return 17;
        }
        if !tasks.iter().all(|&task| self.running(task)) {
            return 18;
        }
        let left: Vec<Condition> = tasks
            .iter()
            .flat_map(|&t| self.written(Finish(t)))
            .collect();
        match left.iter().any(|one| opposite(&left, one)) {
            true => 26,
            false if self.breaks(&left, tasks) => 22,
            false => 0,
        }
    }

    fn is_task(&self, node: usize) -> bool {
        self.plan.nodes[node].kind == TASK
    }

    /// The first 8 + 3N bytes of the state.
    pub fn state(&self) -> Vec<u8> {
        let mut bytes = vec![0; 8];
        for flag in 0..self.plan.flags {
            let bit = u8::try_from(self.value(flag)).unwrap() << (flag % 8);
            bytes[usize::from(flag / 8)] |= bit;
        }
        let ended = |node| self.has(Finish(node)) || self.has(Skip(node));
        let status = |node| match ended(node) {
            true => 2,
            false => u8::from(self.has(Start(node))),
        };
        bytes.extend((0..self.plan.nodes.len()).map(status));
        let place = |node| self.place(node).to_le_bytes();
        bytes.extend((0..self.plan.nodes.len()).flat_map(place));
        bytes
    }

    /// Which of the accepted starts is that of the node, from 1; 0 for none.
    fn place(&self, node: usize) -> u16 {
        let events = self.accepted.iter();
        let mut starts = events.filter(|event| matches!(event, Start(_)));
        let at = starts.position(|&start| start == Start(node));
        at.map_or(0, |at| u16::try_from(at).unwrap() + 1)
    }

    fn has(&self, event: Event) -> bool {
        self.accepted.contains(&event)
    }

    fn running(&self, task: usize) -> bool {
        self.has(Start(task)) && !self.has(Finish(task))
    }

    /// Some event was one of this group, or of a node below it.
    fn happened_in(&self, group: usize) -> bool {
        let mut accepted = self.accepted.iter();
        accepted.any(|event| self.path(event.node()).contains(&group))
    }

    /// Some task was started, or group skipped, that parts from this node at a choice; a skipped
    /// group above the node does so at itself.
    fn chosen_otherwise(&self, node: usize) -> bool {
        let path = self.path(node);
        self.accepted.iter().any(|event| {
            let other = self.path(event.node());
            let parting = path.iter().find(|node| other.contains(node)).unwrap();
            [ANY_OF, OPTIONAL].contains(&self.plan.nodes[*parting].kind)
        })
    }

    /// Whether the node is blocked or below a blocked one. Apart from this the whole plan is asked:
    /// nothing ever happens at absent nodes.
    fn absent(&self, node: usize) -> bool {
        let path = self.path(node);
        path.iter().any(|above| self.blocked.contains(above))
    }

    /// The node and all nodes above it.
    fn path(&self, mut node: usize) -> Vec<usize> {
        let mut path = vec![node];
        while node != 0 {
            node = usize::from(self.plan.nodes[node].parent);
            path.push(node);
        }
        path
    }

    /// Some order's later node is the node or above it, and its earlier node is not complete.
    fn too_early(&self, node: usize) -> bool {
        let complete = self.complete();
        let path = self.path(node);
        let orders = self.plan.orders.iter();
        let mut into = orders.filter(|order| path.contains(&usize::from(order.later)));
        into.any(|order| !complete[usize::from(order.earlier)])
    }

    /// For each node, the leaves first: how many children it has, how many are complete.
    pub fn complete(&self) -> Vec<bool> {
        let nodes = &self.plan.nodes;
        let mut complete = vec![false; nodes.len()];
        let mut children = vec![(0, 0); nodes.len()];
        for (number, node) in nodes.iter().enumerate().rev() {
            let (all, done) = children[number];
            complete[number] = match node.kind {
                TASK => self.has(Finish(number)),
                ALL_OF => done == all,
                _ => done > 0 || self.has(Skip(number)),
            };
            if number > 0 {
                let (all, done) = &mut children[usize::from(node.parent)];
                *all += 1;
                *done += usize::from(complete[number]);
            }
        }
        complete
    }

    fn conditions(&self, task: usize, place: u16) -> Vec<Condition> {
        let of_task = |c: &&Condition| usize::from(c.node) == task && c.place() == place;
        self.plan
            .conditions
            .iter()
            .filter(of_task)
            .copied()
            .collect()
    }

    fn written(&self, event: Event) -> Vec<Condition> {
        match event {
            Start(task) => self.conditions(task, INCONDITION),
            Finish(task) => self.conditions(task, POSTCONDITION),
            Skip(_) => Vec::new(),
        }
    }

    /// What was last written, or the start bit.
    fn value(&self, flag: u16) -> u16 {
        let writes = self.accepted.iter().rev().flat_map(|&e| self.written(e));
        let mut signs = writes.filter(|c| c.flag() == flag).map(|c| c.sign());
        let start = u16::from(self.plan.starts_set(usize::from(flag)));
        signs.next().unwrap_or(start)
    }

    fn all_true(&self, task: usize) -> bool {
        let needs = self.conditions(task, PRECONDITION);
        needs
            .iter()
            .all(|need| self.value(need.flag()) == need.sign())
    }

    /// Some other running task holds the opposite of something written.
    fn breaks(&self, written: &[Condition], by: &[usize]) -> bool {
        let others = (0..self.plan.nodes.len()).filter(|task| !by.contains(task));
        others.filter(|&task| self.running(task)).any(|task| {
            let held = self.conditions(task, INCONDITION);
            held.iter().any(|hold| opposite(written, hold))
        })
    }
}

/// Some of these conditions is on the same flag and has the other sign.
fn opposite(conditions: &[Condition], of: &Condition) -> bool {
    let mut conditions = conditions.iter();
    conditions.any(|c| c.flag() == of.flag() && c.sign() != of.sign())
}
