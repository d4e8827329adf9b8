//! Events, the statuses of nodes, and refusals 17 to 20 and 27.

use crate::model::format::{Plan, ALL_OF, ANY_OF, INCONDITION, OPTIONAL, POSTCONDITION, TASK};
use crate::model::literal::Literal;

/// Start or finish of the task with this number, or skip of the optional group with it; a call may
/// name any number.
#[derive(Clone, Copy, Debug, PartialEq, Eq)]
pub enum Event {
    Start(usize),
    Finish(usize),
    Skip(usize),
}

#[derive(Clone, Copy, Debug, PartialEq, Eq, Hash)]
pub enum Status {
    Waiting,
    Running,
    Done,
    /// Of an optional group whose branch without tasks is taken.
    Skipped,
}

/// The status of every node: an optional group is waiting or skipped, other groups are always
/// waiting.
#[derive(Clone, Debug, PartialEq, Eq, Hash)]
pub struct Statuses(pub Vec<Status>);

impl Event {
    /// Every event with this number.
    pub fn each(number: usize) -> [Event; 3] {
        [Event::Start, Event::Finish, Event::Skip].map(|event| event(number))
    }

    /// The starts and finishes of the tasks, and the skips of the optional groups, under the node.
    pub fn under(plan: &Plan, node: usize) -> impl Iterator<Item = Event> + '_ {
        let tasks = plan.tasks_under(node);
        let skips = plan.optional_under(node).map(Event::Skip);
        tasks
            .flat_map(|task| [Event::Start(task), Event::Finish(task)])
            .chain(skips)
    }

    /// The task or the group.
    pub fn node(self) -> usize {
        match self {
            Event::Start(node) | Event::Finish(node) | Event::Skip(node) => node,
        }
    }

    /// The same event of another node.
    pub fn at(self, node: usize) -> Event {
        match self {
            Event::Start(_) => Event::Start(node),
            Event::Finish(_) => Event::Finish(node),
            Event::Skip(_) => Event::Skip(node),
        }
    }

    /// The literals that the event makes true.
    pub fn asserts(self, plan: &Plan) -> impl Iterator<Item = Literal> + '_ {
        let place = match self {
            Event::Start(_) => Some(INCONDITION),
            Event::Finish(_) => Some(POSTCONDITION),
            Event::Skip(_) => None,
        };
        let places = place.into_iter();
        places.flat_map(move |place| plan.conditions_of(self.node(), place))
    }
}

impl Statuses {
    pub fn all_waiting(plan: &Plan) -> Statuses {
        Statuses(vec![Status::Waiting; plan.nodes.len()])
    }

    pub fn after(&self, event: Event) -> Statuses {
        let mut after = self.clone();
        after.0[event.node()] = match event {
            Event::Start(_) => Status::Running,
            Event::Finish(_) => Status::Done,
            Event::Skip(_) => Status::Skipped,
        };
        after
    }

    pub fn runs(&self, task: usize) -> bool {
        self.0[task] == Status::Running
    }

    pub fn running<'a>(&'a self, plan: &'a Plan) -> impl Iterator<Item = usize> + 'a {
        plan.tasks().filter(|&task| self.runs(task))
    }

    /// Whether the node is a task that runs or is done.
    pub fn started(&self, node: usize) -> bool {
        matches!(self.0[node], Status::Running | Status::Done)
    }

    /// Whether the node is a group that is skipped.
    pub fn skipped(&self, node: usize) -> bool {
        self.0[node] == Status::Skipped
    }

    /// Whether a task under the node is started or an optional group under it is skipped (01, 02:
    /// taken).
    pub fn begun(&self, plan: &Plan, node: usize) -> bool {
        let mut moved = (0..self.0.len()).filter(|&node| self.started(node) || self.skipped(node));
        moved.any(|moved| plan.is_under(moved, node))
    }

    pub fn complete(&self, plan: &Plan, node: usize) -> bool {
        let mut children = plan.children(node);
        match plan.nodes[node].kind {
            TASK => self.0[node] == Status::Done,
            ALL_OF => children.all(|child| self.complete(plan, child)),
            ANY_OF => children.any(|child| self.complete(plan, child)),
            OPTIONAL => self.skipped(node) || children.any(|child| self.complete(plan, child)),
            kind => unreachable!("kind {kind} in an accepted plan"),
        }
    }

    /// The first of refusals 17 to 20 that applies to the event, 27 in the place of 17 for a skip,
    /// judged on the node `top` alone: only orders among nodes below it and choices at or below it
    /// count.
    pub fn check(&self, plan: &Plan, top: usize, event: Event) -> Result<(), u32> {
        let node = event.node();
        let (of_its_kind, number) = match event {
            Event::Start(_) | Event::Finish(_) => (plan.is_task(node), 17),
            Event::Skip(_) => (plan.is_optional(node), 27),
        };
        if !(of_its_kind && plan.is_under(node, top)) {
            return Err(number);
        }
        if !self.awaits(plan, event) {
            return Err(18);
        }
        if let Event::Start(_) | Event::Skip(_) = event {
            if self.other_branch_begun(plan, top, node) {
                return Err(19);
            }
            if self.earlier_incomplete(plan, top, node) {
                return Err(20);
            }
        }
        Ok(())
    }

    /// Not 18: the task is waiting for its start or running to its finish; the group is not skipped
    /// and no branch of it is begun.
    fn awaits(&self, plan: &Plan, event: Event) -> bool {
        match event {
            Event::Start(task) => self.0[task] == Status::Waiting,
            Event::Finish(task) => self.runs(task),
            Event::Skip(group) => {
                let mut branches = plan.children(group);
                !self.skipped(group) && !branches.any(|branch| self.begun(plan, branch))
            }
        }
    }

    /// 19: another branch of a choice above the node is begun. If that choice is skipped, it is the
    /// one without tasks.
    fn other_branch_begun(&self, plan: &Plan, top: usize, node: usize) -> bool {
        below(plan, top, node).any(|branch| match plan.parent(branch) {
            Some(group) if plan.is_choice(group) => {
                let mut others = plan.children(group).filter(|&child| child != branch);
                self.skipped(group) || others.any(|other| self.begun(plan, other))
            }
            _ => false,
        })
    }

    /// 20: the earlier node of an order that applies to the node is not complete.
    fn earlier_incomplete(&self, plan: &Plan, top: usize, node: usize) -> bool {
        plan.orders.iter().any(|order| {
            let applies = below(plan, top, node).any(|node| node == usize::from(order.later));
            applies && !self.complete(plan, usize::from(order.earlier))
        })
    }
}

/// The nodes below `top` that the node is under.
fn below(plan: &Plan, top: usize, node: usize) -> impl Iterator<Item = usize> + '_ {
    plan.upwards(node).take_while(move |&node| node != top)
}
