//! Plans written down in code, line by line.
//!
//! The fields of a plan are public, so what these calls cannot say (a damaged field) is put in
//! afterwards.

use crate::model::format::{
    Condition, Node, Order, Plan, ALL_OF, ANY_OF, INCONDITION, NO_PARENT, OPTIONAL, POSTCONDITION,
    PRECONDITION, TASK,
};

impl Plan {
    /// A plan of V flags, all clear at the start, without nodes.
    pub fn new(flags: u16) -> Plan {
        Plan {
            flags,
            start: [0; 8],
            nodes: Vec::new(),
            conditions: Vec::new(),
            orders: Vec::new(),
        }
    }

    pub fn starting_with(mut self, flag: usize) -> Plan {
        self.set_at_start(flag);
        self
    }

    pub fn task(self, name: &[u8; 4], parent: u8, minutes: u16) -> Plan {
        self.node(name, parent, TASK, minutes)
    }

    pub fn all_of(self, name: &[u8; 4], parent: u8) -> Plan {
        self.node(name, parent, ALL_OF, 0)
    }

    pub fn any_of(self, name: &[u8; 4], parent: u8) -> Plan {
        self.node(name, parent, ANY_OF, 0)
    }

    pub fn optional(self, name: &[u8; 4], parent: u8) -> Plan {
        self.node(name, parent, OPTIONAL, 0)
    }

    pub fn node(mut self, name: &[u8; 4], parent: u8, kind: u8, minutes: u16) -> Plan {
        self.nodes.push(Node {
            name: *name,
            parent,
            kind,
            minutes,
        });
        self
    }

    /// A precondition of the node added last.
    pub fn pre(self, flag: u16, sign: u16) -> Plan {
        self.condition(PRECONDITION, flag, sign)
    }

    /// An incondition of the node added last.
    pub fn inc(self, flag: u16, sign: u16) -> Plan {
        self.condition(INCONDITION, flag, sign)
    }

    /// A postcondition of the node added last.
    pub fn post(self, flag: u16, sign: u16) -> Plan {
        self.condition(POSTCONDITION, flag, sign)
    }

    /// A condition of the node added last.
    pub fn condition(mut self, place: u16, flag: u16, sign: u16) -> Plan {
        let last = u8::try_from(self.nodes.len() - 1).expect("a node number of 1 byte");
        self.conditions
            .push(Condition::new(last, place, flag, sign));
        self
    }

    pub fn order(mut self, earlier: u8, later: u8) -> Plan {
        self.orders.push(Order::new(earlier, later));
        self
    }

    /// An all-of root with bare tasks under it, `nodes` in all (at least 2).
    pub fn flat(flags: u16, nodes: usize) -> Plan {
        let root = Plan::new(flags).all_of(b"ROOT", NO_PARENT);
        (1..nodes).fold(root, |plan, _| plan.task(b"TASK", 0, 0))
    }

    /// One bare task.
    pub fn one_task(flags: u16) -> Plan {
        Plan::new(flags).task(b"TASK", NO_PARENT, 0)
    }
}

#[cfg(test)]
mod tests {
    use super::*;
    use crate::model::format::{CLEAR, SET};

    #[test]
    fn makes_b() {
        let plan = Plan::new(2)
            .all_of(b"MOOR", NO_PARENT)
            .task(b"CAST", 0, 12)
            .pre(0, CLEAR)
            .inc(0, SET)
            .post(0, CLEAR)
            .any_of(b"COMS", 0)
            .task(b"RADI", 2, 3)
            .pre(0, CLEAR)
            .inc(1, SET)
            .post(1, CLEAR)
            .task(b"SATL", 2, 5)
            .inc(1, SET)
            .post(1, CLEAR)
            .order(1, 2);
        assert_eq!(&plan.bytes()[..], include_bytes!("../../../samples/b.plan"));
    }
}
