//! The search for the first sequence of the root's children: rows below the root once, then depth
//! first, lower numbers first, with the literals that may be true after a prefix. A prefix that a
//! child cannot follow is left at once.

use super::row::Rows;
use super::tables::{place, Tables, AFTER};
use super::words::{and, or, swap, Literals};

/// What a search has come to.
pub struct Searched {
    /// The nodes, the first in the lowest byte, if a sequence is found.
    pub nodes: Option<u64>,
    /// How many prefixes were gone on from, the empty and the whole ones among them.
    pub prefixes: usize,
}

/// The search among the root's children, of which there are at most seven and none may clobber.
pub fn search(tables: &Tables, rows: &Rows, start: u64) -> Searched {
    let mut search = Search {
        tables,
        rows,
        children: tables.segment(0),
        prefixes: 0,
    };
    Searched {
        nodes: search.after(0, [!start, start]),
        prefixes: search.prefixes,
    }
}

struct Search<'a> {
    tables: &'a Tables,
    rows: &'a Rows,
    children: &'a [u8],
    prefixes: usize,
}

impl Search<'_> {
    /// The first rest of a sequence after the children at these places, if there is one.
    fn after(&mut self, seen: u64, may_be: Literals) -> Option<u64> {
        self.prefixes += 1;
        if seen.count_ones() as usize == self.children.len() {
            return Some(0);
        }
        for (at, &child) in self.children.iter().enumerate() {
            if seen >> at & 1 == 0 && self.may_follow(child, seen, may_be) {
                let row = &self.rows[place(child)];
                let next = or(row.may_post, and([row.avoids; 2], may_be));
                if let Some(rest) = self.after(seen | 1 << at, next) {
                    return Some(rest << 8 | u64::from(child));
                }
            }
        }
        None
    }

    /// Whether all that stand before the child are seen, and it may need nothing whose opposite may
    /// be true.
    fn may_follow(&self, child: u8, seen: u64, may_be: Literals) -> bool {
        let order = &self.tables.order[place(child)];
        let mut places = self.children.iter().enumerate();
        let unmet = and(self.rows[place(child)].may_pre, swap(may_be));
        unmet == [0; 2] && places.all(|(at, &d)| order[place(d)] != AFTER || seen >> at & 1 == 1)
    }
}
