//! Sizes of two plans that together are at, below or beyond a limit.

use reference::model::format::Sizes;
use reference::tools::generate::pairs::agree;
use reference::tools::generate::{flat_plan, LIMITS};
use reference::tools::random::Random;
use reference::tools::scenario::merged::Pair;
use reference::tools::scenario::tally::Tally;

/// Two plans whose sizes are around the limits. Their flags start alike or not.
pub fn pair(random: &mut Random) -> Pair {
    let [nodes, conditions, orders] = [127, 1_024, 512].map(|limit| match random.below(4) {
        0 => limit - 1,
        1 => limit + 1,
        _ => limit,
    });
    let sizes = parts(random, nodes, conditions, orders);
    let [one, mut other] = sizes.map(|sizes| flat_plan(random, sizes));
    if random.below(4) > 0 {
        agree(&one, &mut other);
    }
    Pair::of(&[one, other])
}

/// Merge calls with outputs of lengths around the limit, where flags start alike and where one does
/// not. Whether 33 is returned is known.
fn check(tally: &mut Tally, random: &mut Random, sizes: [Sizes; 2], beyond: bool) {
    let [one, mut other] = sizes.map(|sizes| flat_plan(random, sizes));
    agree(&one, &mut other);
    for turned in [0, 1] {
        other.start[0] ^= turned;
        let pair = Pair::of(&[one.clone(), other.clone()]);
        let want = match (beyond, turned) {
            (true, _) => Err(33),
            (_, 1) => Err(34),
            _ => Ok(()),
        };
        assert_eq!(pair.merged().map(|_| ()), want, "{sizes:?}");
        for len in pair.lengths() {
            tally.merge(&pair, &random.bytes(len));
        }
    }
}

/// Each of the three sizes one below its limit, at it and one beyond.
pub fn around(tally: &mut Tally) {
    let mut random = Random::new(269);
    let around = |limit: usize| [limit - 1, limit, limit + 1];
    for nodes in around(LIMITS.nodes - 1) {
        for conditions in around(LIMITS.conditions) {
            for orders in around(LIMITS.orders) {
                let sizes = parts(&mut random, nodes, conditions, orders);
                let beyond = nodes > 127 || conditions > 1_024 || orders > 512;
                check(tally, &mut random, sizes, beyond);
            }
        }
    }
}

/// Sizes of two plans that together are these, each with room for all of them.
fn parts(random: &mut Random, nodes: usize, conditions: usize, orders: usize) -> [Sizes; 2] {
    let part = Sizes {
        nodes: random.within(40, nodes - 40),
        conditions: random.within(1, conditions - 1),
        orders: random.within(1, orders - 1),
        flags: random.within(40, 64),
    };
    let rest = Sizes {
        nodes: nodes - part.nodes,
        conditions: conditions - part.conditions,
        orders: orders - part.orders,
        flags: random.within(40, 64),
    };
    [part, rest]
}

/// One plan has nearly all of a size, the other next to nothing.
pub fn uneven(tally: &mut Tally) {
    let mut random = Random::new(270);
    let bare = |nodes| Sizes {
        nodes,
        conditions: 0,
        orders: 0,
        flags: 64,
    };
    let conditions = |nodes, conditions| Sizes {
        conditions,
        ..bare(nodes)
    };
    let orders = |nodes, orders| Sizes {
        orders,
        ..bare(nodes)
    };
    for (one, other, beyond) in [
        (bare(1), bare(126), false),
        (bare(1), bare(127), true),
        (bare(1), bare(128), true),
        (bare(2), bare(126), true),
        (bare(127), bare(128), true),
        (bare(128), bare(128), true),
        (conditions(126, 500), conditions(1, 20), false),
        (orders(124, 500), orders(3, 1), false),
        (conditions(20, 1_024), bare(1), false),
        (conditions(20, 1_024), conditions(1, 1), true),
        (conditions(60, 1_024), conditions(60, 1_024), true),
        (orders(40, 512), bare(1), false),
        (orders(40, 512), orders(3, 1), true),
        (orders(60, 512), orders(60, 512), true),
    ] {
        check(tally, &mut random, [one, other], beyond);
        check(tally, &mut random, [other, one], beyond);
    }
}
