//! Refusals 4 to 8.

use reference::model::format::{Plan, ALL_OF, ANY_OF, NO_PARENT, OPTIONAL, TASK};

use crate::tally::Tally;

/// The kinds of groups.
const GROUPS: [u8; 3] = [ALL_OF, ANY_OF, OPTIONAL];

/// Every single start bit, for every V.
pub fn start_flags(tally: &mut Tally) {
    for flags in 1..=64 {
        for flag in 0..64 {
            let want = if flag < usize::from(flags) { 0 } else { 4 };
            tally.expect(&Plan::one_task(flags).starting_with(flag).bytes(), want);
        }
    }
}

/// Every byte value at each place of the first, a middle and the last name.
pub fn names(tally: &mut Tally) {
    let allowed = b"0123456789ABCDEFGHIJKLMNOPQRSTUVWXYZ-";
    for node in [0, 64, 127] {
        for place in 0..4 {
            for character in 0..=255 {
                let mut plan = Plan::flat(1, 128);
                plan.nodes[node].name[place] = character;
                let want = if allowed.contains(&character) { 0 } else { 5 };
                tally.expect(&plan.bytes(), want);
            }
        }
    }
}

pub fn kinds_and_minutes(tally: &mut Tally) {
    for kind in 0..=255 {
        let without_child = match kind {
            TASK => 0,
            ALL_OF | ANY_OF | OPTIONAL => 8,
            _ => 6,
        };
        let mut plan = Plan::one_task(1);
        plan.nodes[0].kind = kind;
        tally.expect(&plan.bytes(), without_child);

        let with_child = match kind {
            TASK => 7,
            ALL_OF | ANY_OF | OPTIONAL => 0,
            _ => 6,
        };
        let mut plan = Plan::flat(1, 3);
        plan.nodes[0].kind = kind;
        tally.expect(&plan.bytes(), with_child);
    }
    for minutes in 0..=u16::MAX {
        let mut plan = Plan::flat(1, 3);
        plan.nodes[2].minutes = minutes;
        tally.expect(&plan.bytes(), if minutes <= 10_080 { 0 } else { 6 });

        for kind in GROUPS {
            let mut plan = Plan::flat(1, 2);
            (plan.nodes[0].kind, plan.nodes[0].minutes) = (kind, minutes);
            tally.expect(&plan.bytes(), if minutes == 0 { 0 } else { 6 });
        }
    }
}

/// Groups 0, 1, 4 and 8; each keeps a child if one of its children moves.
fn nested() -> Plan {
    Plan::new(1)
        .all_of(b"ROOT", NO_PARENT)
        .any_of(b"ANY-", 0)
        .task(b"TSK2", 1, 0)
        .task(b"TSK3", 1, 0)
        .all_of(b"ALL-", 0)
        .task(b"TSK5", 4, 0)
        .task(b"TSK6", 4, 0)
        .task(b"TSK7", 0, 0)
        .optional(b"OPT-", 0)
        .task(b"TSK9", 8, 0)
        .task(b"TSKA", 8, 0)
}

pub fn parents_and_children(tally: &mut Tally) {
    each_parent(tally);
    group_without_child(tally);
    only_child_moved_away(tally);
    chain(tally);
}

/// Every value as the parent of each node.
fn each_parent(tally: &mut Tally) {
    let groups = [0, 1, 4, 8];
    for node in 0..11u8 {
        for parent in 0..=255 {
            let good = match node {
                0 => parent == 255,
                _ => parent < node && groups.contains(&parent),
            };
            let mut plan = nested();
            plan.nodes[usize::from(node)].parent = parent;
            tally.expect(&plan.bytes(), if good { 0 } else { 7 });
        }
    }
}

/// Each task of the nested plan made a group.
fn group_without_child(tally: &mut Tally) {
    for task in [2, 3, 5, 6, 7, 9, 10] {
        for kind in GROUPS {
            let mut plan = nested();
            plan.nodes[task].kind = kind;
            tally.expect(&plan.bytes(), 8);
        }
    }
}

fn only_child_moved_away(tally: &mut Tally) {
    for (parent, want) in [(1, 0), (0, 8)] {
        let plan = Plan::new(1)
            .all_of(b"ROOT", NO_PARENT)
            .any_of(b"ANY-", 0)
            .task(b"TASK", parent, 0);
        tally.expect(&plan.bytes(), want);
    }
}

/// Groups one inside the other as deep as N permits, the last node a task or a group.
fn chain(tally: &mut Tally) {
    for depth in 1..=127u8 {
        for kind in GROUPS {
            let node = |plan: Plan, i: u8| plan.node(b"NODE", i.wrapping_sub(1), kind, 0);
            let groups = (0..depth).fold(Plan::new(1), node);
            tally.expect(&groups.bytes(), 8);
            let with_task = groups.clone().task(b"TASK", depth - 1, 10_080);
            tally.expect(&with_task.bytes(), 0);
            let task_as_parent = with_task.task(b"TASK", depth, 0);
            let want = if depth == 127 { 2 } else { 7 };
            tally.expect(&task_as_parent.bytes(), want);
        }
    }
}
