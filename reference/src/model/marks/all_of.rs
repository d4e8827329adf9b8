//! What the rules say of an all-of group and one flag.

use super::entry::Marks;
use super::facts::{pair, Facts, Pair};
use super::relation::Before;

pub fn facts(before: &Before, children: &[(usize, Pair)]) -> Pair {
    pair(|sign| {
        let group = Group {
            before,
            children,
            sign,
        };
        group.facts()
    })
}

/// An all-of group's children as one literal sees them; c, d and e are children, each with its
/// node and facts.
struct Group<'a> {
    before: &'a Before,
    children: &'a [(usize, Pair)],
    sign: usize,
}

/// A child's node, and its facts about the literal and about its opposite.
#[derive(Clone, Copy)]
struct Child<'a> {
    node: usize,
    own: &'a Facts,
    opposite: &'a Facts,
}

impl<'a> Group<'a> {
    fn children(&self) -> impl Iterator<Item = Child<'a>> {
        let sign = self.sign;
        self.children.iter().map(move |(node, pair)| Child {
            node: *node,
            own: &pair[sign],
            opposite: &pair[1 - sign],
        })
    }

    fn some(&self, fact: impl Fn(Child) -> bool) -> bool {
        self.children().any(fact)
    }

    fn every(&self, fact: impl Fn(Child) -> bool) -> bool {
        self.children().all(fact)
    }

    fn before(&self, d: Child, c: Child) -> bool {
        self.before.holds(d.node, c.node)
    }

    fn unordered(&self, c: Child, d: Child) -> bool {
        self.before.unordered(c.node, d.node)
    }

    fn facts(&self) -> Facts {
        let avoids = self.every(|c| c.own.avoids);
        let quiet = self.every(|c| c.own.quiet);
        let covered =
            self.some(|d| d.own.covered && self.every(|e| !self.before(e, d) || e.own.quiet));
        Facts {
            asserts_flag: self.some(|c| c.own.asserts_flag),
            wants: self.some(|c| c.own.wants),
            asserts: self.some(|c| c.own.asserts),
            leaves: self.some(|c| c.own.leaves),
            avoids,
            quiet,
            covered,
            marks: Marks {
                may_pre: self.some(|c| {
                    c.own.marks.may_pre && self.every(|d| !self.before(d, c) || d.own.avoids)
                }),
                must_pre: !quiet && !covered,
                may_post: self.some(|c| self.may_be_last(c, c.own)),
                must_post: !avoids && !self.some(|c| self.may_be_last(c, c.opposite)),
                may_inc: self.some(|c| c.own.marks.may_inc),
                must_inc: self.some(|c| c.own.marks.must_inc),
                may_clobber: self.may_clobber(),
                must_clobber: self.must_clobber(),
            },
        }
    }

    /// Whether child c may assert the literal of these facts of its own, and then nobody the flag.
    fn may_be_last(&self, c: Child, facts: &Facts) -> bool {
        facts.marks.may_post && self.every(|d| !self.before(c, d) || d.own.avoids)
    }

    /// 01's rule by pairs, and 02's pair of opposed postconditions.
    fn may_clobber(&self) -> bool {
        let pair = |c: Child, d: Child| {
            self.clobbered_beside(c, d) || self.clobbered_by(c, d) || self.opposed(c, d)
        };
        self.some(|c| c.own.marks.may_clobber) || self.some(|c| self.some(|d| pair(c, d)))
    }

    /// Unordered c and d: a task under c has the literal as postcondition, and one under d the
    /// opposite. As all pairs are looked at, both literals of the flag are found.
    fn opposed(&self, c: Child, d: Child) -> bool {
        c.own.leaves && d.opposite.leaves && self.unordered(c, d)
    }

    /// Unordered c and d: a task under c has the literal as pre- or incondition, and one under d
    /// the opposite as in- or postcondition.
    fn clobbered_beside(&self, c: Child, d: Child) -> bool {
        c.own.wants && d.opposite.asserts && self.unordered(c, d)
    }

    /// d before c: d may leave the opposite to c, which may need the literal.
    fn clobbered_by(&self, c: Child, d: Child) -> bool {
        c.own.marks.may_pre
            && d.opposite.marks.may_post
            && self.before(d, c)
            && self.every(|e| !(self.before(d, e) && self.before(e, c)) || e.own.avoids)
    }

    /// 01's rule for doom.
    fn must_clobber(&self) -> bool {
        self.some(|c| self.stays_doomed(c)) || self.some(|c| self.some(|d| self.doomed_by(c, d)))
    }

    /// (a): c has doom, and no task under a child unordered with it asserts the flag.
    fn stays_doomed(&self, c: Child) -> bool {
        c.own.marks.must_clobber && self.every(|d| !self.unordered(c, d) || !d.own.asserts_flag)
    }

    /// (b): d before c must leave the opposite, c must need the literal, and no task under any
    /// other child asserts the flag unless that child stands before d or after c.
    fn doomed_by(&self, c: Child, d: Child) -> bool {
        c.own.marks.must_pre
            && d.opposite.marks.must_post
            && self.before(d, c)
            && self.every(|e| {
                e.node == c.node
                    || e.node == d.node
                    || self.before(e, d)
                    || self.before(c, e)
                    || !e.own.asserts_flag
            })
    }
}
