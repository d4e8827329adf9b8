//! Lists of members, and calls on them.

use std::iter::repeat_with;

use super::any_number;
use super::tally::Tally;
use super::together::some_of;
use super::Case;
use crate::model::calls::{Answers, Call};
use crate::model::format::{Plan, Sizes, HEAD};
use crate::model::members::{plan_of, Change};
use crate::tools::archive;
use crate::tools::generate::clear::{clear_plan, shaken_plan};
use crate::tools::generate::{dense_plan, Shape};
use crate::tools::random::Random;

/// What a call returns where the verdict is CLEAR; the others are higher, all refusals lower.
const CLEAR: u32 = 128;

/// So many bytes the list of a plan has, if the plan has any sizes.
pub fn list_len(plan: &[u8]) -> usize {
    let head = plan.get(..HEAD);
    head.map_or(0, |head| Sizes::read(head).nodes)
}

pub fn children(plan: &Plan) -> Vec<usize> {
    plan.children(0).collect()
}

/// A plan with an all-of root and so many nodes, two or more, with many conditions on few flags: of
/// any shape, or a CLEAR one of tasks in one chain, or near a CLEAR one.
pub fn small_plan(random: &mut Random, nodes: usize) -> Plan {
    let sizes = Sizes {
        nodes,
        conditions: 9 * nodes,
        orders: nodes,
        flags: 2,
    };
    let mut drawn = repeat_with(|| match random.below(3) {
        0 => dense_plan(random, nodes),
        1 => clear_plan(random, sizes, Shape::FLAT),
        _ => shaken_plan(random, sizes, Shape::EVEN),
    });
    let plan = drawn.find(|plan| plan.is_all_of(0));
    plan.expect("draws never end")
}

/// The list of these members.
pub fn list_of(plan: &Plan, members: &[usize]) -> Vec<u8> {
    let nodes = 0..plan.nodes.len();
    let byte = |node| u8::from(members.contains(&node));
    nodes.map(byte).collect()
}

/// A list that is accepted, with up to three bytes of any kind after it: of many of the root's
/// children, of a few or of none.
pub fn passing(random: &mut Random, plan: &Plan) -> Vec<u8> {
    let members = some_of(random, &children(plan));
    let extra = random.below(4);
    [list_of(plan, &members), random.bytes(extra)].concat()
}

/// A list of any kind: mostly accepted; or too short, or with up to two bytes changed.
pub fn any_list(random: &mut Random, plan: &Plan) -> Vec<u8> {
    let nodes = plan.nodes.len();
    let mut list = passing(random, plan);
    match random.below(8) {
        0 => list.truncate(random.below(nodes)),
        1 | 2 => {
            for _ in 0..random.within(1, 2) {
                let byte = random.byte();
                list[random.below(nodes)] = random.pick(&[1, 1, 2, 3, 128, 255, byte]);
            }
        }
        _ => {}
    }
    list
}

/// Include or exclude: mostly of a child of the root, sometimes of any number.
pub fn any_change(random: &mut Random, plan: &Plan) -> Change {
    let children = children(plan);
    let number = match random.below(8) {
        1.. if !children.is_empty() => random.pick(&children),
        _ => any_number(random, plan),
    };
    random.pick(&Change::each(number))
}

/// Calls to be made from nobody: first all children come in any order and then go in any order, up
/// to so many of them; between them any others, and at the end more of these.
pub fn changes(random: &mut Random, plan: &Plan, most: usize) -> Vec<Change> {
    let [mut come, mut go] = [children(plan), children(plan)];
    random.shuffle(&mut come);
    random.shuffle(&mut go);
    let come = come.into_iter().map(Change::Include);
    let in_turn = come.chain(go.into_iter().map(Change::Exclude));
    let mut calls = Vec::new();
    for call in in_turn.take(most) {
        if random.below(3) == 0 {
            calls.push(any_change(random, plan));
        }
        calls.push(call);
    }
    calls.extend((0..4).map(|_| any_change(random, plan)));
    calls
}

/// An accepted call of a list of calls.
pub struct Turn {
    pub call: Change,
    /// The members before it, and after it.
    pub before: Vec<usize>,
    pub after: Vec<usize>,
    /// The bytes after the list.
    pub later: Vec<u8>,
    pub returned: u32,
}

/// The calls one after another, each lent what the last one left, from nobody and with these bytes
/// after the list: those that are accepted.
///
/// Who is a member is told from the calls. Each of them returns what the archive's verdict is on the
/// plan of the members, as bytes of its own.
#[track_caller]
pub fn replay(
    tally: &mut Tally,
    answers: &Answers,
    plan: &Plan,
    calls: &[Change],
    later: &[u8],
) -> Vec<Turn> {
    let mut turns = Vec::new();
    let mut members = Vec::new();
    for &call in calls {
        let case = Case {
            call: Call::Change(call),
            plan: plan.bytes(),
            blocked: Vec::new(),
            lent: [&list_of(plan, &members)[..], later].concat(),
        };
        let returned = tally.compare(answers, &case).returned;
        if returned >= CLEAR {
            let before = members.clone();
            members = after(&members, call);
            assert_eq!(returned, afresh(plan, &members), "{members:?} of {plan:?}");
            turns.push(Turn {
                call,
                before,
                after: members.clone(),
                later: later.to_vec(),
                returned,
            });
        }
    }
    turns
}

/// The members after an accepted call, in rising order.
fn after(members: &[usize], call: Change) -> Vec<usize> {
    let mut after = members.to_vec();
    match call {
        Change::Include(node) => after.push(node),
        Change::Exclude(node) => after.retain(|&member| member != node),
    }
    after.sort_unstable();
    after
}

/// The archive's verdict on the plan of these members. A plan has to have one.
pub fn afresh(plan: &Plan, members: &[usize]) -> u32 {
    let mut of_members = plan_of(plan, members).bytes();
    match members {
        [] => CLEAR,
        _ => archive::make(&Call::Verdict, &mut of_members, &[], &mut []),
    }
}
