//! The bytes of a plan (01: book) and their fields.
//!
//! The fields hold whatever the bytes hold, so they describe damaged plans too.

/// Length of the sizes and the start flags.
pub const HEAD: usize = 16;

/// The root's parent.
pub const NO_PARENT: u8 = 255;

pub const TASK: u8 = 0;
pub const ALL_OF: u8 = 1;
pub const ANY_OF: u8 = 2;
/// 02: perhaps.
pub const OPTIONAL: u8 = 3;

/// Signs of a literal.
pub const CLEAR: u16 = 0;
pub const SET: u16 = 1;

/// Places of a condition (01: need, hold, leaving).
pub const PRECONDITION: u16 = 0;
pub const INCONDITION: u16 = 1;
pub const POSTCONDITION: u16 = 2;

#[derive(Clone, Debug, PartialEq, Eq)]
pub struct Plan {
    /// V, the number of flags.
    pub flags: u16,
    /// Bytes 8 to 15.
    pub start: [u8; 8],
    pub nodes: Vec<Node>,
    pub conditions: Vec<Condition>,
    pub orders: Vec<Order>,
}

#[derive(Clone, Copy, Debug, PartialEq, Eq)]
pub struct Node {
    pub name: [u8; 4],
    pub parent: u8,
    pub kind: u8,
    pub minutes: u16,
}

#[derive(Clone, Copy, Debug, PartialEq, Eq)]
pub struct Condition {
    pub node: u8,
    /// flag + 64 × sign + 128 × place.
    pub value: u16,
}

#[derive(Clone, Copy, Debug, PartialEq, Eq)]
pub struct Order {
    pub earlier: u8,
    pub later: u8,
}

/// The four numbers in bytes 0 to 7.
#[derive(Clone, Copy, Debug, PartialEq, Eq)]
pub struct Sizes {
    /// N
    pub nodes: usize,
    /// C
    pub conditions: usize,
    /// K
    pub orders: usize,
    /// V
    pub flags: usize,
}

impl Sizes {
    /// The sizes in the first 8 bytes.
    pub fn read(bytes: &[u8]) -> Sizes {
        let size = |at: usize| usize::from(number(&bytes[at..at + 2]));
        Sizes {
            nodes: size(0),
            conditions: size(2),
            orders: size(4),
            flags: size(6),
        }
    }

    /// The length of a plan of these sizes.
    pub fn plan_len(&self) -> usize {
        HEAD + 8 * self.nodes + 3 * self.conditions + 2 * self.orders
    }
}

impl Condition {
    pub fn new(node: u8, place: u16, flag: u16, sign: u16) -> Condition {
        Condition {
            node,
            value: flag + 64 * sign + 128 * place,
        }
    }

    pub fn flag(&self) -> u16 {
        self.value % 64
    }

    pub fn sign(&self) -> u16 {
        self.value / 64 % 2
    }

    /// 3 or more in a value over 383.
    pub fn place(&self) -> u16 {
        self.value / 128
    }
}

impl Order {
    pub fn new(earlier: u8, later: u8) -> Order {
        Order { earlier, later }
    }
}

impl Plan {
    /// Whether the bit of flag f, below 64, is one.
    pub fn starts_set(&self, flag: usize) -> bool {
        self.start[flag / 8] >> (flag % 8) & 1 == 1
    }

    /// Makes the bit of flag f one.
    pub fn set_at_start(&mut self, flag: usize) {
        self.start[flag / 8] |= 1 << (flag % 8);
    }

    /// The plan's bytes, with the sizes that the fields have.
    pub fn bytes(&self) -> Vec<u8> {
        let mut out = Vec::new();
        for size in [self.nodes.len(), self.conditions.len(), self.orders.len()] {
            let size = u16::try_from(size).expect("a size that 2 bytes can hold");
            out.extend(size.to_le_bytes());
        }
        out.extend(self.flags.to_le_bytes());
        out.extend(self.start);
        for node in &self.nodes {
            out.extend(node.name);
        }
        for node in &self.nodes {
            out.extend([node.parent, node.kind]);
            out.extend(node.minutes.to_le_bytes());
        }
        out.extend(self.conditions.iter().map(|condition| condition.node));
        for condition in &self.conditions {
            out.extend(condition.value.to_le_bytes());
        }
        out.extend(self.orders.iter().map(|order| order.earlier));
        out.extend(self.orders.iter().map(|order| order.later));
        out
    }

    /// Writes the bytes from the beginning of the output on, and answers their length; or refusal 15,
    /// and nothing is written.
    pub fn write(&self, out: &mut [u8]) -> Result<usize, u32> {
        let bytes = self.bytes();
        let written = out.get_mut(..bytes.len()).ok_or(15_u32)?;
        written.copy_from_slice(&bytes);
        Ok(bytes.len())
    }

    /// The fields of bytes whose length agrees with their sizes.
    pub fn read(bytes: &[u8]) -> Plan {
        let sizes = Sizes::read(bytes);
        assert_eq!(bytes.len(), sizes.plan_len());
        let (head, rest) = bytes.split_at(HEAD);
        let (names, rest) = rest.split_at(4 * sizes.nodes);
        let (entries, rest) = rest.split_at(4 * sizes.nodes);
        let (condition_nodes, rest) = rest.split_at(sizes.conditions);
        let (values, rest) = rest.split_at(2 * sizes.conditions);
        let (earlier, later) = rest.split_at(sizes.orders);

        let mut start = [0; 8];
        start.copy_from_slice(&head[8..]);
        let nodes = names.chunks(4).zip(entries.chunks(4));
        let conditions = condition_nodes.iter().zip(values.chunks(2));
        let orders = earlier.iter().zip(later);
        Plan {
            flags: number(&head[6..8]),
            start,
            nodes: nodes
                .map(|(name, entry)| Node {
                    name: [name[0], name[1], name[2], name[3]],
                    parent: entry[0],
                    kind: entry[1],
                    minutes: number(&entry[2..]),
                })
                .collect(),
            conditions: conditions
                .map(|(&node, value)| Condition {
                    node,
                    value: number(value),
                })
                .collect(),
            orders: orders
                .map(|(&earlier, &later)| Order::new(earlier, later))
                .collect(),
        }
    }
}

/// A number of 2 bytes, the low one first.
pub fn number(bytes: &[u8]) -> u16 {
    u16::from(bytes[0]) + 256 * u16::from(bytes[1])
}

/// A node for a test: a group, or a task of no minutes.
#[cfg(test)]
pub fn node(parent: u8, kind: u8) -> Node {
    Node {
        name: *b"NODE",
        parent,
        kind,
        minutes: 0,
    }
}

#[cfg(test)]
mod tests {
    use super::*;

    /// A plan written out byte by byte, each field with a value of its own.
    const BYTES: [u8; 42] = [
        2, 0, 2, 0, 2, 0, 0x40, 0, // sizes
        0x01, 0, 0, 0, 0, 0, 0, 0x80, // flags 0 and 63
        b'R', b'O', b'O', b'T', b'T', b'A', b'-', b'9', // names
        255, 1, 0, 0, 0, 0, 0x60, 0x27, // entries
        1, 1, // the conditions' nodes
        0x3F, 0x00, 0x7F, 0x01, // their values
        3, 4, 5, 6, // earlier nodes, later nodes
    ];

    fn fields() -> Plan {
        let node = |name: &[u8; 4], parent, kind, minutes| Node {
            name: *name,
            parent,
            kind,
            minutes,
        };
        Plan {
            flags: 64,
            start: [1, 0, 0, 0, 0, 0, 0, 128],
            nodes: vec![
                node(b"ROOT", NO_PARENT, ALL_OF, 0),
                node(b"TA-9", 0, TASK, 10_080),
            ],
            conditions: vec![
                Condition::new(1, PRECONDITION, 63, CLEAR),
                Condition::new(1, POSTCONDITION, 63, SET),
            ],
            orders: vec![Order::new(3, 5), Order::new(4, 6)],
        }
    }

    #[test]
    fn fields_and_bytes_agree() {
        assert_eq!(Plan::read(&BYTES), fields());
        assert_eq!(fields().bytes(), BYTES);
    }

    #[test]
    fn start_flags() {
        let mut plan = fields();
        let set = |plan: &Plan| (0..64).filter(|&f| plan.starts_set(f)).collect::<Vec<_>>();
        assert_eq!(set(&plan), [0, 63]);
        plan.set_at_start(10);
        assert_eq!(plan.start, [1, 4, 0, 0, 0, 0, 0, 128]);
        assert_eq!(set(&plan), [0, 10, 63]);
    }

    #[test]
    fn parts_of_a_value() {
        let parts = |value| {
            let condition = Condition { node: 0, value };
            (condition.place(), condition.flag(), condition.sign())
        };
        assert_eq!(parts(0), (PRECONDITION, 0, CLEAR));
        assert_eq!(parts(127), (PRECONDITION, 63, SET));
        assert_eq!(parts(128), (INCONDITION, 0, CLEAR));
        assert_eq!(parts(255), (INCONDITION, 63, SET));
        assert_eq!(parts(256), (POSTCONDITION, 0, CLEAR));
        assert_eq!(parts(383), (POSTCONDITION, 63, SET));
        assert_eq!(parts(384), (3, 0, CLEAR));
    }
}
