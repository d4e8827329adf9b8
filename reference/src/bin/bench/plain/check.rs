//! Refusals 1 to 14, each by one pass over the bytes.

/// The parts of an accepted plan.
pub struct Fields<'a> {
    pub flags: usize,
    /// Bit f is flag f.
    pub start: u64,
    names: &'a [u8],
    /// Parent, kind, minutes.
    pub entries: &'a [[u8; 4]],
    pub condition_nodes: &'a [u8],
    condition_values: &'a [[u8; 2]],
    pub earlier: &'a [u8],
    pub later: &'a [u8],
}

impl<'a> Fields<'a> {
    /// 1 to 3.
    fn new(bytes: &'a [u8]) -> Result<Fields<'a>, u32> {
        if bytes.len() < 16 {
            return Err(1);
        }
        let size = |at: usize| usize::from(u16::from_le_bytes([bytes[at], bytes[at + 1]]));
        let (nodes, conditions, orders, flags) = (size(0), size(2), size(4), size(6));
        if !(1..=128).contains(&nodes)
            || conditions > 1024
            || orders > 512
            || !(1..=64).contains(&flags)
        {
            return Err(2);
        }
        if bytes.len() != 16 + 8 * nodes + 3 * conditions + 2 * orders {
            return Err(3);
        }
        let (head, rest) = bytes.split_at(16);
        let (names, rest) = rest.split_at(4 * nodes);
        let (entries, rest) = rest.split_at(4 * nodes);
        let (condition_nodes, rest) = rest.split_at(conditions);
        let (values, rest) = rest.split_at(2 * conditions);
        let (earlier, later) = rest.split_at(orders);
        Ok(Fields {
            flags,
            start: u64::from_le_bytes(head[8..].try_into().expect("8 bytes")),
            names,
            entries: entries.as_chunks().0,
            condition_nodes,
            condition_values: values.as_chunks().0,
            earlier,
            later,
        })
    }

    pub fn values(&self) -> impl DoubleEndedIterator<Item = u16> + '_ {
        let values = self.condition_values.iter();
        values.map(|&value| u16::from_le_bytes(value))
    }

    fn conditions(&self) -> impl DoubleEndedIterator<Item = (u8, u16)> + ExactSizeIterator + '_ {
        let values = self.condition_values.iter();
        let pairs = self.condition_nodes.iter().zip(values);
        pairs.map(|(&node, &value)| (node, u16::from_le_bytes(value)))
    }

    fn orders(&self) -> impl Iterator<Item = (u8, u8)> + '_ {
        self.earlier.iter().copied().zip(self.later.iter().copied())
    }

    fn kind(&self, node: u8) -> Option<u8> {
        self.entries.get(usize::from(node)).map(|entry| entry[1])
    }

    /// 4
    fn start_beyond_flags(&self) -> bool {
        self.flags < 64 && self.start >> self.flags != 0
    }

    /// 5
    fn bad_name(&self) -> bool {
        let mut names = self.names.iter();
        !names.all(|character| matches!(character, b'-' | b'0'..=b'9' | b'A'..=b'Z'))
    }

    /// 6
    fn bad_entry(&self) -> bool {
        self.entries.iter().any(|&[_, kind, low, high]| {
            let minutes = u16::from_le_bytes([low, high]);
            match kind {
                0 => minutes > 10_080,
                1..=3 => minutes != 0,
                _ => true,
            }
        })
    }

    /// 7
    fn bad_parent(&self) -> bool {
        self.entries.iter().enumerate().any(|(node, entry)| {
            let parent = usize::from(entry[0]);
            match node {
                0 => parent != 255,
                _ => parent >= node || self.entries[parent][1] == 0,
            }
        })
    }

    /// 8
    fn childless_group(&self) -> bool {
        let mut has_child = [false; 256];
        self.entries.iter().enumerate().rev().any(|(node, entry)| {
            let childless = entry[1] != 0 && !has_child[node];
            has_child[usize::from(entry[0])] = true;
            childless
        })
    }

    /// 9
    fn bad_condition(&self) -> bool {
        self.conditions().any(|(node, value)| {
            self.kind(node) != Some(0) || value > 383 || usize::from(value % 64) >= self.flags
        })
    }

    /// 11; conditions rise, so that the last task seen is enough.
    fn both_signs(&self) -> bool {
        let mut with_set = [255; 192];
        self.conditions().rev().any(|(node, value)| {
            let slot = &mut with_set[usize::from(value / 128 * 64 + value % 64)];
            if value / 64 % 2 == 1 {
                *slot = node;
            }
            value / 64 % 2 == 0 && *slot == node
        })
    }

    /// 12
    fn incondition_alone(&self) -> bool {
        let mut with_post = [255; 64];
        self.conditions().rev().any(|(node, value)| {
            let slot = &mut with_post[usize::from(value % 64)];
            if value / 128 == 2 {
                *slot = node;
            }
            value / 128 == 1 && *slot != node
        })
    }

    /// 13
    fn bad_order(&self) -> bool {
        let parent = |node: u8| Some(self.entries.get(usize::from(node))?[0]);
        self.orders().any(|(earlier, later)| {
            let group = parent(earlier);
            earlier == 0
                || earlier >= later
                || group != parent(later)
                || group.and_then(|group| self.kind(group)) != Some(1)
        })
    }
}

/// The parts of an accepted plan, or the first refusal that applies. A function of its own, so that
/// its instructions can be counted.
#[inline(never)]
pub fn accept<'a>(bytes: &'a [u8]) -> Result<Fields<'a>, u32> {
    let fields = Fields::new(bytes)?;
    type Rule<'a> = (u32, fn(&Fields<'a>) -> bool);
    let rules: [Rule<'a>; 11] = [
        (4, Fields::start_beyond_flags),
        (5, Fields::bad_name),
        (6, Fields::bad_entry),
        (7, Fields::bad_parent),
        (8, Fields::childless_group),
        (9, Fields::bad_condition),
        (10, |fields| !fields.conditions().is_sorted_by(|a, b| a < b)),
        (11, Fields::both_signs),
        (12, Fields::incondition_alone),
        (13, Fields::bad_order),
        (14, |fields| !fields.orders().is_sorted_by(|a, b| a < b)),
    ];
    match rules.iter().find(|(_, applies)| applies(&fields)) {
        Some((number, _)) => Err(*number),
        None => Ok(fields),
    }
}
