//! A flag with a sign, and which literals the conditions of a task speak of.

use crate::model::format::{Condition, Plan};

#[derive(Clone, Copy, Debug, PartialEq, Eq, Hash)]
pub struct Literal {
    pub flag: u16,
    pub sign: u16,
}

impl Literal {
    pub fn new(flag: u16, sign: u16) -> Literal {
        Literal { flag, sign }
    }

    /// The same flag with the other sign.
    pub fn opposite(self) -> Literal {
        Literal::new(self.flag, 1 - self.sign)
    }
}

impl Plan {
    /// The 2V literals, in the order of a summary's entries.
    pub fn literals(&self) -> impl Iterator<Item = Literal> {
        (0..self.flags).flat_map(|flag| [0, 1].map(|sign| Literal::new(flag, sign)))
    }

    /// The literals of a task's conditions at one place.
    pub fn conditions_of(&self, task: usize, place: u16) -> impl Iterator<Item = Literal> + '_ {
        let here = move |c: &&Condition| usize::from(c.node) == task && c.place() == place;
        let found = self.conditions.iter().filter(here);
        found.map(|condition| Literal::new(condition.flag(), condition.sign()))
    }

    pub fn has(&self, task: usize, place: u16, literal: Literal) -> bool {
        self.conditions_of(task, place).any(|l| l == literal)
    }
}
