//! The nodes of an accepted plan as a tree.

use std::iter::successors;

use crate::model::format::{
    Condition, Node, Order, Plan, ALL_OF, ANY_OF, NO_PARENT, OPTIONAL, TASK,
};

impl Plan {
    /// Whether the number, which may be any, is that of a task.
    pub fn is_task(&self, number: usize) -> bool {
        self.has_kind(number, TASK)
    }

    /// Whether the number, which may be any, is that of an optional group.
    pub fn is_optional(&self, number: usize) -> bool {
        self.has_kind(number, OPTIONAL)
    }

    pub fn is_all_of(&self, node: usize) -> bool {
        self.has_kind(node, ALL_OF)
    }

    pub fn is_any_of(&self, node: usize) -> bool {
        self.has_kind(node, ANY_OF)
    }

    /// Whether the node is a group of which one branch is taken.
    pub fn is_choice(&self, node: usize) -> bool {
        self.is_any_of(node) || self.is_optional(node)
    }

    fn has_kind(&self, number: usize, kind: u8) -> bool {
        let node = self.nodes.get(number);
        node.is_some_and(|node| node.kind == kind)
    }

    pub fn tasks(&self) -> impl Iterator<Item = usize> + '_ {
        (0..self.nodes.len()).filter(|&node| self.is_task(node))
    }

    pub fn optional_groups(&self) -> impl Iterator<Item = usize> + '_ {
        (0..self.nodes.len()).filter(|&node| self.is_optional(node))
    }

    pub fn parent(&self, node: usize) -> Option<usize> {
        match self.nodes[node].parent {
            NO_PARENT => None,
            parent => Some(usize::from(parent)),
        }
    }

    pub fn children(&self, group: usize) -> impl Iterator<Item = usize> + '_ {
        let is_child = move |&node: &usize| self.parent(node) == Some(group);
        (0..self.nodes.len()).filter(is_child)
    }

    /// The node, its parent, and so on to the root.
    pub fn upwards(&self, node: usize) -> impl Iterator<Item = usize> + '_ {
        successors(Some(node), |&node| self.parent(node))
    }

    /// Whether the node is `above` or stands below it.
    pub fn is_under(&self, node: usize, above: usize) -> bool {
        self.upwards(node).any(|node| node == above)
    }

    pub fn tasks_under(&self, node: usize) -> impl Iterator<Item = usize> + '_ {
        self.tasks().filter(move |&task| self.is_under(task, node))
    }

    pub fn optional_under(&self, node: usize) -> impl Iterator<Item = usize> + '_ {
        let groups = self.optional_groups();
        groups.filter(move |&group| self.is_under(group, node))
    }

    /// The plan of these nodes alone, numbered anew in this order, with their conditions and the
    /// orders between them, each sorted. The parent of each but the root is to be among them.
    pub fn numbered(&self, numbers: &[usize]) -> Plan {
        let mut anew = [None; 256];
        for (at, &number) in (0..).zip(numbers) {
            anew[number] = Some(at);
        }
        let anew = |number: u8| anew[usize::from(number)];
        let node = |&number: &usize| {
            let node = self.nodes[number];
            let parent = anew(node.parent).unwrap_or(NO_PARENT);
            Node { parent, ..node }
        };
        let condition = |condition: &Condition| {
            let node = anew(condition.node)?;
            Some(Condition { node, ..*condition })
        };
        let order = |order: &Order| Some(Order::new(anew(order.earlier)?, anew(order.later)?));
        let mut plan = Plan {
            nodes: numbers.iter().map(node).collect(),
            conditions: self.conditions.iter().filter_map(condition).collect(),
            orders: self.orders.iter().filter_map(order).collect(),
            ..*self
        };
        plan.conditions.sort_by_key(|c| (c.node, c.value));
        plan.orders.sort_by_key(|o| (o.earlier, o.later));
        plan
    }
}
