//! The verdict, and the sequence, in plain Rust, by the shortcuts that the proved crates take:
//! rules in passes over the bytes, words whose bit f speaks of flag f, the children of a group as a
//! segment of one array, chains of orders filled backwards, pairs each looked at once and only for
//! literals that a pair can clobber, children passed over that require and leave nothing wanted,
//! and shared literals narrowed until none is left.
//!
//! Its modules in their order: words, row; check, tables; siblings, pairs; rows; search.
//!
//! It is no reference: tests compare it with the reference, and nothing else rests on it.

mod check;
mod pairs;
mod row;
mod rows;
mod search;
mod siblings;
mod tables;
mod words;

use check::Fields;
use row::Row;
use search::Searched;
use tables::Tables;
use words::{and, or};

/// The working memory of one call, in bytes.
pub const BUFFERS: usize = size_of::<Tables>() + 128 * size_of::<Row>();

/// What `knowetop_verdict` is to return.
pub fn verdict(bytes: &[u8]) -> u32 {
    let fields = match check::accept(bytes) {
        Ok(fields) => fields,
        Err(number) => return number,
    };
    let mut tables = Tables::BLANK;
    tables.fill(&fields);
    judged(&fields, rows::root(&tables))
}

/// What `knowetop_sequence` is to return, and how many prefixes were gone on from.
pub fn sequence(bytes: &[u8]) -> (u64, usize) {
    let fields = match check::accept(bytes) {
        Ok(fields) => fields,
        Err(number) => return (u64::from(number), 0),
    };
    let mut tables = Tables::BLANK;
    tables.fill(&fields);
    let count = tables.segment(0).len();
    if tables.kinds[0] != 1 || count > 7 {
        return (23, 0);
    }
    let rows = rows::below_root(&tables);
    if tables
        .children(0)
        .any(|child| rows[child].may_clobber != [0; 2])
    {
        return (24, 0);
    }
    let Searched { nodes, prefixes } = search::search(&tables, &rows, fields.start);
    let word = nodes.map_or(24, |nodes| nodes | (count as u64) << 56);
    (word, prefixes)
}

fn judged(fields: &Fields, root: Row) -> u32 {
    let false_at_start = [fields.start, !fields.start];
    let may_fail = or(root.may_clobber, and(root.may_pre, false_at_start));
    let doomed = or(root.must_clobber, and(root.must_pre(), false_at_start));
    match (may_fail, doomed) {
        ([0, 0], _) => 128,
        (_, [0, 0]) => 130,
        _ => 129,
    }
}

#[cfg(test)]
mod tests {
    use super::{sequence, verdict};
    use reference::model::calls::{make, Call};
    use reference::model::format::{Plan, Sizes};
    use reference::model::sequence::answer;
    use reference::tools::edit::edit;
    use reference::tools::generate::clear::shaken_plan;
    use reference::tools::generate::disordered::disordered;
    use reference::tools::generate::{any_plan, dense_plan, plan, LIMITS, SHAPES};
    use reference::tools::random::Random;

    #[test]
    fn agrees_with_the_reference() {
        let mut random = Random::new(91);
        let mut counts = [0; 131];
        let mut plans: Vec<Plan> = Vec::new();
        for nodes in 1..=12 {
            plans.extend((0..1_000).map(|_| dense_plan(&mut random, nodes)));
        }
        for shape in SHAPES {
            for orders in [0, 100, 512] {
                let sizes = Sizes { orders, ..LIMITS };
                plans.push(plan(&mut random, sizes, shape));
                plans.extend((0..20).map(|_| shaken_plan(&mut random, sizes, shape)));
            }
        }
        plans.extend((0..200).map(|_| any_plan(&mut random, LIMITS)));
        for mut plan in plans {
            for _ in 0..2 {
                let bytes = plan.bytes();
                let want = make(&Call::Verdict, &bytes, &[], &mut []);
                assert_eq!(verdict(&bytes), want, "{plan:?}");
                counts[want as usize] += 1;
                edit(&mut plan, &mut random);
            }
        }
        let bytes = plan(&mut random, LIMITS, SHAPES[4]).bytes();
        for len in 0..bytes.len() {
            let want = make(&Call::Verdict, &bytes[..len], &[], &mut []);
            assert_eq!(verdict(&bytes[..len]), want);
            counts[want as usize] += 1;
        }
        for returned in (1..=14).chain(128..=130) {
            assert!(counts[returned] >= 10, "{returned}: {}", counts[returned]);
        }
    }

    #[test]
    fn sequences_of_small_plans() {
        let mut random = Random::new(92);
        let mut counts = [0; 3];
        for nodes in 1..=10 {
            for _ in 0..300 {
                let plan = dense_plan(&mut random, nodes);
                let bytes = disordered(&mut random, &plan).bytes();
                let (word, _) = sequence(&bytes);
                assert_eq!(word, answer(&bytes), "{plan:?}");
                counts[word.saturating_sub(23).min(2) as usize] += 1;
            }
        }
        assert!(counts.iter().all(|&count| count >= 200), "{counts:?}");
    }
}
