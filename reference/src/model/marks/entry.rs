//! The marks of one literal, an entry of a summary.

/// The eight marks of a literal at a node, as 01 numbers them.
#[derive(Clone, Copy, Debug, PartialEq, Eq)]
pub struct Marks {
    /// 0, may external precondition (01: may need).
    pub may_pre: bool,
    /// 1, must external precondition (01: must need).
    pub must_pre: bool,
    /// 2, may external postcondition (01: may leave).
    pub may_post: bool,
    /// 3, must external postcondition (01: must leave).
    pub must_post: bool,
    /// 4, may incondition (01: may hold).
    pub may_inc: bool,
    /// 5, must incondition (01: must hold).
    pub must_inc: bool,
    /// 6, may clobber (01: may clash).
    pub may_clobber: bool,
    /// 7, must clobber, by its rule (01: doom).
    pub must_clobber: bool,
}

impl Marks {
    /// No mark at all.
    pub const NONE: Marks = Marks::from_order([false; 8]);

    /// The marks from a list in the order of their numbers.
    pub const fn from_order(marks: [bool; 8]) -> Marks {
        let [may_pre, must_pre, may_post, must_post, may_inc, must_inc, may_clobber, must_clobber] =
            marks;
        Marks {
            may_pre,
            must_pre,
            may_post,
            must_post,
            may_inc,
            must_inc,
            may_clobber,
            must_clobber,
        }
    }

    /// The marks in the order of their numbers.
    pub fn in_order(&self) -> [bool; 8] {
        [
            self.may_pre,
            self.must_pre,
            self.may_post,
            self.must_post,
            self.may_inc,
            self.must_inc,
            self.may_clobber,
            self.must_clobber,
        ]
    }
}
