//! What the siblings of a child in an all-of group allow.

use super::row::Rows;
use super::tables::{Tables, AFTER, BEFORE};
use super::words::{and, Literals};

/// The flags for which all siblings of a child before it, after it or unordered with it avoid the
/// flag, are quiet, or do not assert it.
pub struct Siblings {
    pub avoid_before: u64,
    pub quiet_before: Literals,
    pub avoid_after: u64,
    pub silent_apart: u64,
}

impl Siblings {
    pub fn new(tables: &Tables, rows: &Rows, group: usize, child: usize) -> Siblings {
        let mut found = Siblings {
            avoid_before: !0,
            quiet_before: [!0; 2],
            avoid_after: !0,
            silent_apart: !0,
        };
        for sibling in tables.children(group) {
            let row = &rows[sibling];
            match tables.order[child][sibling] {
                AFTER => {
                    found.avoid_before &= row.avoids;
                    found.quiet_before = and(found.quiet_before, row.quiet);
                }
                BEFORE => found.avoid_after &= row.avoids,
                _ if sibling != child => found.silent_apart &= row.silent(),
                _ => {}
            }
        }
        found
    }
}
