//! Expected numbers made by hand from 01.

use super::*;
use crate::model::format::{node, Condition, Order, CLEAR, POSTCONDITION, PRECONDITION, SET};

/// Plan B of 01, byte by byte.
const B: [u8; 82] = [
    5, 0, 8, 0, 1, 0, 2, 0, // sizes
    0, 0, 0, 0, 0, 0, 0, 0, // start flags
    b'M', b'O', b'O', b'R', b'C', b'A', b'S', b'T', b'C', b'O', b'M', b'S', // names
    b'R', b'A', b'D', b'I', b'S', b'A', b'T', b'L', //
    255, 1, 0, 0, 0, 0, 12, 0, 0, 2, 0, 0, 2, 0, 3, 0, 2, 0, 5, 0, // entries
    1, 1, 1, 3, 3, 3, 4, 4, // the conditions' nodes
    0x00, 0x00, 0xC0, 0x00, 0x00, 0x01, // CAST: 0-clear, 0-set, 0-clear
    0x00, 0x00, 0xC1, 0x00, 0x01, 0x01, // RADI: 0-clear, 1-set, 1-clear
    0xC1, 0x00, 0x01, 0x01, // SATL: 1-set, 1-clear
    1, 2, // the order
];

fn check(plan: &Plan, want: u32) {
    assert_eq!(refusal(&plan.bytes()), want, "{plan:?}");
}

fn bare(nodes: Vec<Node>) -> Plan {
    Plan {
        flags: 1,
        start: [0; 8],
        nodes,
        conditions: Vec::new(),
        orders: Vec::new(),
    }
}

/// An all-of root with bare tasks under it, so many nodes in all.
fn flat(nodes: usize) -> Plan {
    let mut all = vec![node(0, TASK); nodes];
    all[0] = node(NO_PARENT, ALL_OF);
    bare(all)
}

#[test]
fn the_sample_is_b() {
    assert_eq!(&B, include_bytes!("../../../../samples/b.plan"));
}

#[test]
fn rows_of_01() {
    assert_eq!(refusal(&B), 0);
    assert_eq!(refusal(&B[..15]), 1);
    assert_eq!(refusal(&[]), 1);
    assert_eq!(refusal(&[0; 16]), 2, "no nodes");
    check(&flat(128), 0);
    check(&flat(129), 2);

    let one_task = bare(vec![node(NO_PARENT, TASK)]);
    let mut bytes = one_task.bytes();
    assert_eq!(bytes.len(), 24);
    assert_eq!(refusal(&bytes), 0);
    assert_eq!(refusal(&bytes[..23]), 3);
    bytes.push(0);
    assert_eq!(refusal(&bytes), 3);

    for (minutes, want) in [(10_080, 0), (10_081, 6)] {
        let mut plan = one_task.clone();
        plan.nodes[0].minutes = minutes;
        check(&plan, want);
    }
}

/// One change to B for each cause, and changes that leave it valid.
#[test]
fn changes_to_b() {
    type Change = (u32, fn(&mut Plan));
    let changes: [Change; 40] = [
        (0, |p| p.set_at_start(1)),
        (4, |p| p.set_at_start(2)),
        (4, |p| p.set_at_start(63)),
        (5, |p| p.nodes[4].name[3] = b'l'),
        (0, |p| p.nodes[4].name = *b"Z-09"),
        (6, |p| p.nodes[0].kind = 4),
        (6, |p| p.nodes[2].kind = 255),
        (6, |p| p.nodes[2].minutes = 1),
        (0, |p| p.nodes[2].kind = OPTIONAL),
        (6, |p| (p.nodes[2].kind, p.nodes[2].minutes) = (OPTIONAL, 1)),
        (7, |p| p.nodes[0].parent = 0),
        (7, |p| p.nodes[4].parent = 1),
        (7, |p| p.nodes[2].parent = 2),
        (7, |p| p.nodes[2].parent = 255),
        (8, |p| (p.nodes[1].kind, p.nodes[1].minutes) = (ALL_OF, 0)),
        (8, |p| (p.nodes[1].kind, p.nodes[1].minutes) = (OPTIONAL, 0)),
        (9, |p| p.conditions[7].node = 5),
        (9, |p| p.conditions[2].node = 2),
        (9, |p| {
            p.nodes[2].kind = OPTIONAL;
            p.conditions[2].node = 2;
        }),
        (9, |p| p.conditions[7].value = 384),
        (9, |p| {
            p.conditions[7] = Condition::new(4, POSTCONDITION, 2, CLEAR)
        }),
        (10, |p| p.conditions.swap(0, 1)),
        (10, |p| p.conditions.swap(1, 6)),
        (10, |p| p.conditions[1] = p.conditions[0]),
        (11, |p| {
            p.conditions
                .insert(1, Condition::new(1, PRECONDITION, 0, SET))
        }),
        (11, |p| {
            p.conditions.push(Condition::new(4, POSTCONDITION, 1, SET))
        }),
        (11, |p| {
            p.conditions
                .insert(1, Condition::new(1, INCONDITION, 0, CLEAR))
        }),
        (12, |p| p.conditions[7].value = 256),
        (12, |p| p.conditions.truncate(7)),
        (0, |p| p.conditions.truncate(3)),
        (0, |p| p.orders.clear()),
        (13, |p| p.nodes[0].kind = ANY_OF),
        (13, |p| p.nodes[0].kind = OPTIONAL),
        (0, |p| {
            p.nodes[0].kind = OPTIONAL;
            p.orders.clear();
        }),
        (13, |p| p.orders[0] = Order::new(2, 1)),
        (13, |p| p.orders[0] = Order::new(3, 4)),
        (13, |p| p.orders[0] = Order::new(1, 4)),
        (13, |p| p.orders[0] = Order::new(0, 1)),
        (13, |p| p.orders[0] = Order::new(2, 5)),
        (14, |p| p.orders.push(p.orders[0])),
    ];
    for (want, change) in changes {
        let mut plan = Plan::read(&B);
        change(&mut plan);
        check(&plan, want);
    }
}
