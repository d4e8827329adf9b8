//! Which lent bytes change, over cases of every call.

use reference::model::calls::Call;
use reference::model::events::Event;
use reference::model::format::{Plan, Sizes, SET};
use reference::model::listing;
use reference::model::marks::marks;
use reference::model::monitor::State;
use reference::model::rules::{accept, refusal};
use reference::model::summary;
use reference::tools::edit::edit;
use reference::tools::generate::{any_plan, dense_plan, LIMITS};
use reference::tools::random::Random;
use reference::tools::scenario::cases::cases;
use reference::tools::scenario::states::{
    any_state, bytes, malformed, reached_state, reordered_state,
};
use reference::tools::scenario::{reference, After, Case};

use crate::sample;

/// Makes the case, and checks what it returns and leaves as far as 01 says it at once.
fn check(case: &Case) -> u32 {
    let after = case.make(reference);
    assert_eq!(after.plan, case.plan);
    let refused = refusal(&case.plan);
    if refused != 0 {
        assert_eq!(after.returned, refused);
    }
    match after.returned {
        1..=127 => assert_eq!(after.lent, case.lent, "{:?}", case.call),
        _ => accepted(&accept(&case.plan).unwrap(), case, &after),
    }
    after.returned
}

/// An accepted call's lent bytes.
fn accepted(plan: &Plan, case: &Case, after: &After) {
    let mut want = case.lent.clone();
    match &case.call {
        Call::Refusal | Call::Verdict | Call::Status => {}
        Call::Summary(node) => {
            let bytes = summary::bytes(&marks(plan)[*node]);
            assert_eq!(bytes.len(), 16 * usize::from(plan.flags));
            want[..bytes.len()].copy_from_slice(&bytes);
        }
        Call::Fresh => {
            want[..8].copy_from_slice(&plan.start);
            want[8..8 + 3 * plan.nodes.len()].fill(0);
        }
        Call::Event(event) => write_event(plan, *event, &mut want),
        Call::FinishTogether(tasks) => {
            for &task in tasks {
                write_event(plan, Event::Finish(task), &mut want);
            }
        }
        Call::Listing => {
            let text = listing::text(plan);
            assert_eq!(after.returned as usize, 256 + text.len());
            want[..text.len()].copy_from_slice(text.as_bytes());
        }
        Call::Change(change) => want[change.node()] = change.byte(),
    }
    assert_eq!(after.lent, want, "{:?}", case.call);
    if let Call::Event(_) | Call::FinishTogether(_) = case.call {
        assert!(State::read(plan, &after.lent).is_ok());
    }
}

/// Writes the byte of the task or group and, of a task, its place if it starts, and its literals.
fn write_event(plan: &Plan, event: Event, state: &mut [u8]) {
    let (nodes, node) = (plan.nodes.len(), event.node());
    state[8 + node] = match event {
        Event::Start(_) => 1,
        Event::Finish(_) | Event::Skip(_) => 2,
    };
    if let Event::Start(_) = event {
        let started = plan.tasks().filter(|&task| state[8 + task] != 0);
        let place = u16::try_from(started.count()).unwrap();
        let at = 8 + nodes + 2 * node;
        state[at..at + 2].copy_from_slice(&place.to_le_bytes());
    }
    for literal in event.asserts(plan) {
        let bit = 1 << (literal.flag % 8);
        let byte = &mut state[usize::from(literal.flag / 8)];
        *byte = match literal.sign {
            SET => *byte | bit,
            _ => *byte & !bit,
        };
    }
}

#[test]
fn changed_bytes() {
    let mut random = Random::new(51);
    let mut counts = [0; 257];
    let small = Sizes {
        nodes: 20,
        conditions: 40,
        orders: 20,
        flags: 64,
    };
    let mut plans: Vec<Plan> = Vec::new();
    for nodes in 1..=10 {
        plans.extend((0..20).map(|_| dense_plan(&mut random, nodes)));
    }
    plans.extend((0..100).map(|_| any_plan(&mut random, small)));
    for at in 0..200 {
        let mut plan = plans[at].clone();
        edit(&mut plan, &mut random);
        plans.push(plan);
    }
    plans.extend((0..2).map(|_| any_plan(&mut random, LIMITS)));
    for plan in plans {
        for case in cases(&mut random, &plan.bytes(), &[]) {
            counts[check(&case).min(256) as usize] += 1;
        }
    }
    for returned in (15..=22).chain([0, 25, 26, 27, 31, 32, 128, 129, 130, 256]) {
        assert!(counts[returned] > 50, "{returned}: {}", counts[returned]);
    }
}

/// The states to lend are well formed or malformed as their names say.
#[test]
fn lent_states() {
    let mut random = Random::new(52);
    for _ in 0..50 {
        let plan = any_plan(&mut random, LIMITS);
        for draw in [any_state, reached_state, reordered_state] {
            let state = draw(&mut random, &plan);
            let bytes = bytes(&mut random, &plan, &state, 3);
            assert_eq!(bytes.len(), 8 + 3 * plan.nodes.len() + 3);
            for wrong in malformed(&mut random, &plan, &state) {
                assert_eq!(State::read(&plan, &wrong), Err(16));
            }
            assert_eq!(State::read(&plan, &bytes), Ok(state));
        }
    }
}

/// A refused start on plan B.
fn refused() -> Case {
    Case {
        call: Call::Event(Event::Start(2)),
        plan: sample("b"),
        blocked: Vec::new(),
        lent: vec![0; 23],
    }
}

#[test]
fn equal_calls() {
    assert_eq!(refused().compare(reference), 17);
}

#[test]
#[should_panic(expected = "returns 18, not 17")]
fn another_return() {
    refused().compare(|call, plan, blocked, lent| reference(call, plan, blocked, lent) + 1);
}

#[test]
#[should_panic(expected = "leaves 23 bytes 0000000000000000000001000000000000000000000000, not")]
fn a_byte_written() {
    refused().compare(|call, plan, blocked, lent| {
        let returned = reference(call, plan, blocked, lent);
        lent[10] = 1;
        returned
    });
}

#[test]
#[should_panic(expected = "leaves the plan")]
fn a_byte_of_the_plan_written() {
    refused().compare(|call, plan, blocked, lent| {
        let returned = reference(call, plan, blocked, lent);
        plan[16] = b'N';
        returned
    });
}
