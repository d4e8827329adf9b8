//! Fields to text.

use std::fmt;

use super::source::Source;
use crate::model::format::{Condition, Plan, ALL_OF, ANY_OF, NO_PARENT, SET, TASK};

/// The word before the literals of each place.
pub const PLACES: [&str; 3] = ["needs", "holds", "leaves"];

/// The text, in which names, kinds and conditions are allowed ones.
impl fmt::Display for Source {
    fn fmt(&self, f: &mut fmt::Formatter) -> fmt::Result {
        let plan = &self.plan;
        writeln!(f, "flags {}", plan.flags)?;
        set_flags(f, "start", |flag| plan.starts_set(flag))?;
        for number in 0..plan.nodes.len() {
            node(f, plan, number)?;
        }
        for order in &plan.orders {
            writeln!(f, "order {} {}", order.earlier, order.later)?;
        }
        if let Some(length) = self.length {
            writeln!(f, "length {length}")?;
        }
        if self.refused != 0 {
            writeln!(f, "refused {}", self.refused)?;
        }
        Ok(())
    }
}

/// A line of the word and the flags that are set; none where no flag is.
pub fn set_flags(
    f: &mut fmt::Formatter,
    word: &str,
    is_set: impl Fn(usize) -> bool,
) -> fmt::Result {
    let set = (0..64).filter(|&flag| is_set(flag));
    let set: Vec<String> = set.map(|flag| flag.to_string()).collect();
    if set.is_empty() {
        return Ok(());
    }
    writeln!(f, "{word} {}", set.join(" "))
}

/// A node's number and name.
pub fn called(plan: &Plan, number: usize) -> String {
    let name = String::from_utf8_lossy(&plan.nodes[number].name);
    format!("{number} {name}")
}

fn node(f: &mut fmt::Formatter, plan: &Plan, number: usize) -> fmt::Result {
    let node = &plan.nodes[number];
    write!(f, "{} ", called(plan, number))?;
    match node.kind {
        TASK => write!(f, "task {}", node.minutes)?,
        ALL_OF => write!(f, "all-of")?,
        ANY_OF => write!(f, "any-of")?,
        _ => write!(f, "optional")?,
    }
    if node.parent != NO_PARENT {
        write!(f, " under {}", node.parent)?;
    }
    for (place, word) in PLACES.iter().enumerate() {
        let here =
            |c: &&Condition| usize::from(c.node) == number && usize::from(c.place()) == place;
        let literals: Vec<String> = plan.conditions.iter().filter(here).map(literal).collect();
        if !literals.is_empty() {
            write!(f, " {word} {}", literals.join(" "))?;
        }
    }
    writeln!(f)
}

fn literal(condition: &Condition) -> String {
    let sign = if condition.sign() == SET {
        "set"
    } else {
        "clear"
    };
    format!("{}-{sign}", condition.flag())
}
