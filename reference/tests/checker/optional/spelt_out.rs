//! An optional group is an any-of group with one more branch that has no tasks: here that branch is
//! spelt out as a task without conditions.

use std::collections::BTreeMap;

use reference::model::calls::Call;
use reference::model::events::Event::{self, Finish, Skip, Start};
use reference::model::format::{Node, Plan, ANY_OF, TASK};
use reference::model::monitor::state_len;
use reference::tools::generate::dense_plan;
use reference::tools::random::Random;
use reference::tools::scenario::lists::{list, long_list};

use crate::{entries, listed, make, shown};

/// The plan with its optional groups spelt out, and for each of them that task.
fn spelt_out(plan: &Plan) -> (Plan, BTreeMap<usize, usize>) {
    let mut spelt = plan.clone();
    let mut tasks = BTreeMap::new();
    for group in plan.optional_groups() {
        spelt.nodes[group].kind = ANY_OF;
        tasks.insert(group, spelt.nodes.len());
        spelt.nodes.push(Node {
            name: *b"NONE",
            parent: group as u8,
            kind: TASK,
            minutes: 0,
        });
    }
    (spelt, tasks)
}

/// Random plans with optional groups.
fn for_each_plan(seed: u64, mut check: impl FnMut(&mut Random, &Plan)) {
    let mut random = Random::new(seed);
    for nodes in 2..=14 {
        for _ in 0..200 {
            let plan = dense_plan(&mut random, nodes);
            if plan.optional_groups().next().is_some() {
                check(&mut random, &plan);
            }
        }
    }
}

#[test]
fn marks_verdicts_and_lengths() {
    for_each_plan(101, |_, plan| {
        let (bytes, spelt) = (plan.bytes(), spelt_out(plan).0.bytes());
        for node in 0..plan.nodes.len() {
            let found = entries(&bytes, node);
            assert_eq!(found, entries(&spelt, node), "{node} of\n{}", shown(plan));
        }
        let first_line = |plan| listed(plan).lines().next().unwrap().to_string();
        assert_eq!(first_line(&bytes), first_line(&spelt), "{}", shown(plan));
    });
}

/// A plan and the state that the calls on it left.
struct Run {
    plan: Vec<u8>,
    state: Vec<u8>,
}

impl Run {
    fn new(plan: &Plan) -> Run {
        let mut run = Run {
            plan: plan.bytes(),
            state: vec![7; state_len(plan)],
        };
        assert_eq!(make(&Call::Fresh, &run.plan, &mut run.state), 0);
        run
    }

    fn status(&mut self) -> u32 {
        make(&Call::Status, &self.plan, &mut self.state)
    }

    fn returns(&mut self, call: &Call) -> u32 {
        make(call, &self.plan, &mut self.state)
    }

    fn returns_of(&mut self, event: Event) -> u32 {
        self.returns(&Call::Event(event))
    }
}

/// Whether the call has a number past the plan's nodes.
fn names_none(call: &Call, plan: &Plan) -> bool {
    let past = |number: &usize| *number >= plan.nodes.len();
    match call {
        Call::Event(event) => past(&event.node()),
        Call::FinishTogether(tasks) => tasks.iter().any(past),
        _ => false,
    }
}

/// A skip is as the start and finish of that task, but for the numbers of its refusals; all other
/// calls return the same.
#[test]
fn returns_of_calls() {
    let mut skips = 0;
    for_each_plan(102, |random, plan| {
        let (spelt, tasks) = spelt_out(plan);
        let (mut run, mut other) = (Run::new(plan), Run::new(&spelt));
        let drawn = match random.below(2) {
            0 => long_list(random, plan),
            _ => list(random, plan, 20),
        };
        for call in drawn {
            let returned = run.returns(&call);
            match &call {
                Call::Event(Skip(group)) if tasks.contains_key(group) => {
                    let started = other.returns_of(Start(tasks[group]));
                    let alike = [(0, 0), (18, 18), (18, 19), (19, 19), (20, 20)];
                    assert!(alike.contains(&(returned, started)), "{}", shown(plan));
                    if started == 0 {
                        assert_eq!(other.returns_of(Finish(tasks[group])), 0);
                        skips += 1;
                    }
                }
                Call::Event(Skip(_)) => assert_eq!(returned, 27),
                call if names_none(call, plan) => assert!([17, 25].contains(&returned)),
                call => assert_eq!(returned, other.returns(call), "{}", shown(plan)),
            }
            assert_eq!(run.status(), other.status(), "{}", shown(plan));
        }
    });
    assert!(skips > 500, "{skips}");
}
