//! Literals as two words, one of the clear and one of the set ones, whose bit f speaks of flag f.

pub type Literals = [u64; 2];

pub fn or(one: Literals, other: Literals) -> Literals {
    [one[0] | other[0], one[1] | other[1]]
}

pub fn and(one: Literals, other: Literals) -> Literals {
    [one[0] & other[0], one[1] & other[1]]
}

pub fn and_not(one: Literals, other: Literals) -> Literals {
    [one[0] & !other[0], one[1] & !other[1]]
}

/// The same flags with the other sign.
pub fn swap(literals: Literals) -> Literals {
    [literals[1], literals[0]]
}
