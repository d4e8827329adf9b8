//! On random small plans: what the calls promise of lists of them, and what they do not.

use reference::model::format::Plan;
use reference::model::members::Change::{self, Exclude, Include};
use reference::tools::random::Random;
use reference::tools::scenario::members::{changes, children, list_of, small_plan};
use reference::tools::scenario::together::some_of;

use crate::{shown, verdict, CLEAR};

fn for_each_plan(seed: u64, mut check: impl FnMut(&mut Random, &Plan)) {
    let mut random = Random::new(seed);
    for nodes in (2..=9).flat_map(|nodes| [nodes; 90]) {
        let plan = small_plan(&mut random, nodes);
        check(&mut random, &plan);
    }
}

/// A list of members, and what the last accepted call on it returned.
struct Crew<'a> {
    plan: &'a Plan,
    list: Vec<u8>,
    last: u32,
}

impl<'a> Crew<'a> {
    /// Nobody, with the answer that 02 gives them.
    fn new(plan: &'a Plan) -> Crew<'a> {
        Crew {
            plan,
            list: list_of(plan, &[]),
            last: CLEAR,
        }
    }

    fn call(&mut self, change: Change) {
        let returned = super::change(&self.plan.bytes(), &mut self.list, change);
        if returned >= CLEAR {
            self.last = returned;
        }
    }

    /// From whoever is there, by accepted and refused calls, to these members, in any order.
    fn bring(&mut self, random: &mut Random, members: &[usize]) {
        let mut all = children(self.plan);
        random.shuffle(&mut all);
        for child in all {
            let wanted = usize::from(!members.contains(&child));
            self.call(Change::each(child)[wanted]);
        }
    }
}

/// The last answer is the same by whatever calls the members came to be who they are.
#[test]
fn whoever_came_first() {
    let mut met = [0; 3];
    for_each_plan(231, |random, plan| {
        let members = some_of(random, &children(plan));
        let mut straight = Crew::new(plan);
        members
            .iter()
            .for_each(|&member| straight.call(Include(member)));
        for _ in 0..3 {
            let mut crew = Crew::new(plan);
            for call in changes(random, plan, 2 * plan.nodes.len()) {
                crew.call(call);
            }
            crew.bring(random, &members);
            assert_eq!(crew.list, straight.list);
            assert_eq!(crew.last, straight.last, "{members:?} of\n{}", shown(plan));
        }
        met[straight.last as usize - 128] += 1;
    });
    println!("CLEAR, DOOMED, OPEN: {met:?}");
    assert!(met.iter().all(|&count| count > 50));
}

/// Who comes and goes again, or goes and comes again, leaves list and answer as they were; with
/// everybody the answer is the plan's own.
#[test]
fn there_and_back() {
    for_each_plan(232, |random, plan| {
        let all = children(plan);
        let members = some_of(random, &all);
        let mut crew = Crew::new(plan);
        crew.bring(random, &members);
        let (list, last) = (crew.list.clone(), crew.last);
        for &child in &all {
            let there = usize::from(members.contains(&child));
            for call in [there, 1 - there] {
                crew.call(Change::each(child)[call]);
            }
            assert_eq!((&crew.list, crew.last), (&list, last), "{}", shown(plan));
        }
        crew.bring(random, &all);
        assert_eq!(crew.last, verdict(&plan.bytes()), "{}", shown(plan));
    });
}

/// No answer is kept when one comes or goes: of the nine pairs of an answer and the next one all are
/// met, for both calls.
#[test]
fn nothing_is_kept() {
    let mut became = [[[0; 3]; 3]; 2];
    for_each_plan(233, |random, plan| {
        let mut crew = Crew::new(plan);
        for call in changes(random, plan, 2 * plan.nodes.len()) {
            let (before, list) = (crew.last, crew.list.clone());
            crew.call(call);
            if crew.list != list {
                let of_call = &mut became[usize::from(call.byte())];
                of_call[before as usize - 128][crew.last as usize - 128] += 1;
            }
        }
    });
    println!("exclude, include; from CLEAR, DOOMED, OPEN to these: {became:?}");
    assert!(became
        .as_flattened()
        .as_flattened()
        .iter()
        .all(|&count| count > 5));
}

/// Without orders between the root's children CLEAR is kept when one goes.
#[test]
fn clear_without_orders() {
    let mut kept = 0;
    for_each_plan(234, |random, plan| {
        let mut plan = plan.clone();
        plan.orders
            .retain(|order| plan.nodes[usize::from(order.earlier)].parent != 0);
        let mut crew = Crew::new(&plan);
        crew.bring(random, &children(&plan));
        let mut go = children(&plan);
        random.shuffle(&mut go);
        for child in go {
            let before = crew.last;
            crew.call(Exclude(child));
            assert!(before != CLEAR || crew.last == CLEAR, "{}", shown(&plan));
            kept += usize::from(before == CLEAR);
        }
    });
    println!("CLEAR kept {kept} times");
    assert!(kept > 300);
}
