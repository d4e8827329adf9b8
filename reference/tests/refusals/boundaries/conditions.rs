//! Refusals 9 to 12.

use reference::model::format::{
    Condition, Plan, ANY_OF, CLEAR, INCONDITION, NO_PARENT, OPTIONAL, POSTCONDITION, PRECONDITION,
    SET,
};

use crate::tally::Tally;

pub fn all(tally: &mut Tally) {
    nodes(tally);
    values(tally);
    pairs(tally);
    both_signs(tally);
    inconditions(tally);
}

/// Tasks 1, 3 and 4; groups 0 and 2.
fn five_nodes(flags: u16) -> Plan {
    Plan::new(flags)
        .all_of(b"ROOT", NO_PARENT)
        .task(b"TSK1", 0, 0)
        .any_of(b"ANY-", 0)
        .task(b"TSK3", 2, 0)
        .task(b"TSK4", 2, 0)
}

#[track_caller]
fn expect(tally: &mut Tally, flags: u16, conditions: &[Condition], want: u32) {
    let mut plan = five_nodes(flags);
    plan.conditions = conditions.to_vec();
    tally.expect(&plan.bytes(), want);
}

/// Every value as the node of a condition.
fn nodes(tally: &mut Tally) {
    for node in 0..=255 {
        let want = if [1, 3, 4].contains(&node) { 0 } else { 9 };
        for value in [0, 127, 256, 383] {
            for kind in [ANY_OF, OPTIONAL] {
                let mut plan = five_nodes(64);
                plan.nodes[2].kind = kind;
                plan.conditions = vec![Condition { node, value }];
                tally.expect(&plan.bytes(), want);
            }
        }
    }
}

/// Every value of a condition with 64 flags, and the lower ones for every V.
fn values(tally: &mut Tally) {
    let mut one = |flags: u16, value: u16| {
        let want = match value {
            384.. => 9,
            _ if value % 64 >= flags => 9,
            128..=255 => 12,
            _ => 0,
        };
        expect(tally, flags, &[Condition { node: 4, value }], want);
    };
    for value in 0..=u16::MAX {
        one(64, value);
    }
    for flags in 1..64 {
        for value in 0..512 {
            one(flags, value);
        }
    }
}

/// Two conditions after each other, rising, equal and falling.
fn pairs(tally: &mut Tally) {
    let values = [0, 1, 62, 63, 64, 65, 127, 256, 257, 319, 320, 321, 383];
    let on = |node| values.map(|value| Condition { node, value });
    let all = [on(1), on(3), on(4)].concat();
    for a in &all {
        for b in &all {
            let rising = a.node < b.node || a.node == b.node && a.value < b.value;
            let opposite = a.node == b.node && a.value + 64 == b.value && a.sign() == CLEAR;
            let want = match (rising, opposite) {
                (false, _) => 10,
                (true, true) => 11,
                (true, false) => 0,
            };
            expect(tally, 64, &[*a, *b], want);
        }
    }
}

/// Both signs of each flag in each place, and neighbours that only look like it.
fn both_signs(tally: &mut Tally) {
    for flag in 0..64 {
        let on = |node, place, sign| Condition::new(node, place, flag, sign);
        for place in [PRECONDITION, POSTCONDITION] {
            expect(tally, 64, &[on(1, place, CLEAR), on(1, place, SET)], 11);
            expect(tally, 64, &[on(1, place, CLEAR), on(3, place, SET)], 0);
            expect(tally, 64, &[on(3, place, SET), on(4, place, CLEAR)], 0);
        }
        let held_twice = [
            on(4, INCONDITION, CLEAR),
            on(4, INCONDITION, SET),
            on(4, POSTCONDITION, SET),
        ];
        expect(tally, 64, &held_twice, 11);
        let one_in_each_place = [
            on(4, PRECONDITION, CLEAR),
            on(4, INCONDITION, SET),
            on(4, POSTCONDITION, CLEAR),
        ];
        expect(tally, 64, &one_in_each_place, 0);
    }
    let clear = |flag| Condition::new(1, PRECONDITION, flag, CLEAR);
    let all_clear: Vec<Condition> = (0..63).map(clear).collect();
    for flag in 0..64 {
        let last = Condition::new(1, PRECONDITION, flag, SET);
        let conditions = [&all_clear[..], &[last]].concat();
        expect(tally, 64, &conditions, if flag < 63 { 11 } else { 0 });
    }
}

/// An incondition with a postcondition on the same or another flag, of the same or another task.
fn inconditions(tally: &mut Tally) {
    for (held_sign, other_sign) in [(CLEAR, CLEAR), (CLEAR, SET), (SET, CLEAR), (SET, SET)] {
        for flag in 0..64 {
            let held = Condition::new(3, INCONDITION, flag, held_sign);
            for other_flag in 0..64 {
                let left = Condition::new(3, POSTCONDITION, other_flag, other_sign);
                let want = if other_flag == flag { 0 } else { 12 };
                expect(tally, 64, &[held, left], want);
            }
            let left_elsewhere = Condition::new(4, POSTCONDITION, flag, other_sign);
            expect(tally, 64, &[held, left_elsewhere], 12);
            let needed = Condition::new(3, PRECONDITION, flag, other_sign);
            expect(tally, 64, &[needed, held], 12);
        }
    }
}
