//! The pairs of children of an all-of group that may, or must, clobber a literal.

use super::row::{Row, Rows};
use super::tables::{place, Tables, AFTER, BEFORE};
use super::words::{and, and_not, or, swap, Literals};

/// The children of an all-of group, with their rows and what orders them.
pub struct Group<'a> {
    pub tables: &'a Tables,
    pub rows: &'a Rows,
    pub children: &'a [u8],
}

impl Group<'_> {
    /// The wanted literals that some pair may clobber.
    pub fn may_clobber(&self, wanted: Literals) -> Literals {
        let children = self.children.iter().map(|&child| place(child));
        let left = children.fold(wanted, |left, c| self.left_with(left, c));
        and_not(wanted, left)
    }

    /// The known literals, and those that some pair must clobber.
    pub fn must_clobber(&self, known: Literals) -> Literals {
        let children = self.children.iter().map(|&child| place(child));
        children.fold(known, |found, c| self.must_clobber_with(found, c))
    }

    /// The wanted literals that no pair with c may clobber. The search ends when c requires and
    /// leaves none that is left.
    fn left_with(&self, wanted: Literals, c: usize) -> Literals {
        let row = &self.rows[c];
        let concerned = or(row.wants, row.leaves);
        let (mut left, mut at) = (wanted, 0);
        while and(left, concerned) != [0; 2] {
            match self.clobbering(left, c, at) {
                Some((pair, partner)) => {
                    left = and_not(left, pair);
                    at = partner + 1;
                }
                None => return left,
            }
        }
        left
    }

    /// The wanted literals of the first pair with c that has any, from this position on, and the
    /// partner's position.
    fn clobbering(&self, wanted: Literals, c: usize, from: usize) -> Option<(Literals, usize)> {
        let partners = from..self.children.len();
        let mut pairs = partners.map(|at| (self.clobbered(wanted, c, at), at));
        pairs.find(|(pair, _)| *pair != [0; 2])
    }

    /// The wanted literals that the child at this position may clobber for c.
    fn clobbered(&self, wanted: Literals, c: usize, at: usize) -> Literals {
        let d = place(self.children[at]);
        let (row, other) = (&self.rows[c], &self.rows[d]);
        match self.tables.order[c][d] {
            AFTER => {
                let shared = and(wanted, and(row.may_pre, swap(other.may_post)));
                self.narrowed(shared, at, |e| self.between(c, e, d), |e| e.avoids)
            }
            BEFORE => [0; 2],
            _ if c == d => [0; 2],
            _ => {
                let broken = and(row.wants, swap(other.asserts));
                let opposed = and(row.leaves, swap(other.leaves));
                and(wanted, or(broken, opposed))
            }
        }
    }

    /// The known literals, and those that some pair with c must clobber, if c must require any that
    /// is not known.
    fn must_clobber_with(&self, known: Literals, c: usize) -> Literals {
        let required = self.rows[c].must_pre();
        let mut wanted = and_not(required, known);
        if wanted == [0; 2] {
            return known;
        }
        let mut found = known;
        for (at, &d) in self.children.iter().enumerate() {
            let d = place(d);
            if self.tables.order[c][d] == AFTER {
                let shared = and(wanted, swap(self.rows[d].must_post()));
                let pair = self.narrowed(shared, at, |e| self.disturbs(c, e, d), Row::silent);
                found = or(found, pair);
                wanted = and_not(wanted, pair);
            }
        }
        found
    }

    fn between(&self, c: usize, e: usize, d: usize) -> bool {
        self.tables.order[c][e] == AFTER && self.tables.order[d][e] == BEFORE
    }

    fn disturbs(&self, c: usize, e: usize, d: usize) -> bool {
        e != c && e != d && self.tables.order[d][e] != AFTER && self.tables.order[c][e] != BEFORE
    }

    /// Of these literals, those whose flag every child has that the test is true of. The children
    /// after this position come first: there the literals are soonest settled.
    fn narrowed(
        &self,
        literals: Literals,
        at: usize,
        test: impl Fn(usize) -> bool,
        flags: impl Fn(&Row) -> u64,
    ) -> Literals {
        let mut left = literals;
        if left == [0; 2] {
            return left;
        }
        let (first, after) = self.children.split_at(at + 1);
        for part in [after, first] {
            for &e in part {
                if left == [0; 2] {
                    return left;
                }
                let e = place(e);
                if test(e) {
                    left = and(left, [flags(&self.rows[e]); 2]);
                }
            }
        }
        left
    }
}
