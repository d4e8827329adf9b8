//! Plans worked out by hand or, the large ones, by another program, and kept as bytes, texts or
//! hashes.

use reference::model::generated::Recipe;

use super::{generate, generated};
use crate::{listed, plan, sample, verdict, CLEAR, DOOMED, OPEN};

/// These bytes are written to an output of their length and to a longer one, and nothing to one
/// that is a byte shorter.
#[track_caller]
fn check(recipe: Recipe, plan: &[u8]) {
    let (len, accepted) = (plan.len(), 256 + plan.len() as u32);
    for (lent, returned, written) in [
        (len - 1, 15, &[][..]),
        (len, accepted, plan),
        (len + 1, accepted, plan),
        (len + 900, accepted, plan),
    ] {
        let out = vec![7; lent];
        let after = generate(recipe, &out);
        assert_eq!(after.returned, returned, "{recipe:?}, {lent} bytes lent");
        let kept = &out[written.len()..];
        assert_eq!(after.out, [written, kept].concat(), "{recipe:?}");
    }
}

/// The upper halves of the states are 9E37, 3C6E, DAA6, 78DD and 1715 in hexadecimal: odd, 50
/// beyond a multiple of 60, 6 beyond one of 8, odd, odd. Seeds beside 0 draw the same.
#[test]
fn one_task() {
    let bytes = [
        &[3, 0, 2, 0, 0, 0, 8, 0][..],            // sizes
        &[0, 0, 0, 0, 0, 0, 0, 0],                // no flag set
        b"SOAKG001T002",                          // names
        &[255, 1, 0, 0, 0, 2, 0, 0, 1, 0, 50, 0], // entries: any-of, 50 minutes
        &[2, 2],                                  // the conditions' nodes
        &[70, 0, 70, 1],                          // needs flag 6 set, leaves it set
    ]
    .concat();
    for seed in [0, 1, u32::MAX] {
        check(Recipe::new(seed, 1, 1), &bytes);
    }
    assert_eq!(verdict(&bytes), DOOMED);
}

/// 9E39, 3C70, DAA7, 78DF and 1716: the task needs flag 7 set and leaves it clear.
#[test]
fn unlike_signs() {
    let bytes = [
        &[3, 0, 2, 0, 0, 0, 8, 0][..],
        &[0, 0, 0, 0, 0, 0, 0, 0],
        b"SOAKG001T002",
        &[255, 1, 0, 0, 0, 2, 0, 0, 1, 0, 52, 0],
        &[2, 2],
        &[71, 0, 7, 1],
    ]
    .concat();
    check(Recipe::new(100_000, 1, 1), &bytes);
}

/// 9E38 and 3C6F for the kinds; DAA7, 78DE, 1716 and B54D, then 5385, F1BC, 8FF4 and 2E2B for the
/// tasks; CC63, which is odd, for the order.
#[test]
fn two_groups() {
    let bytes = [
        &[5, 0, 4, 0, 1, 0, 8, 0][..],
        &[0, 0, 0, 0, 0, 0, 0, 0],
        b"SOAKG001G002T003T004",
        &[255, 1, 0, 0, 0, 1, 0, 0, 0, 2, 0, 0], // all-of, any-of
        &[1, 0, 55, 0, 2, 0, 21, 0],             // the tasks' entries
        &[3, 3, 4, 4],
        &[6, 0, 70, 1, 4, 0, 68, 1], // both need clear and leave set
        &[1, 2],                     // 1 before 2
    ]
    .concat();
    check(Recipe::new(51_000, 2, 2), &bytes);
    assert_eq!(verdict(&bytes), CLEAR);
}

/// A group that has two tasks, and orders in a chain.
#[test]
fn three_groups() {
    let bytes = [
        &[8, 0, 8, 0, 2, 0, 8, 0][..],
        &[0, 0, 0, 0, 0, 0, 0, 0],
        b"SOAKG001G002G003T004T005T006T007",
        &[255, 1, 0, 0, 0, 2, 0, 0, 0, 1, 0, 0, 0, 1, 0, 0],
        &[1, 0, 41, 0, 2, 0, 23, 0, 3, 0, 49, 0, 1, 0, 31, 0],
        &[4, 4, 5, 5, 6, 6, 7, 7],
        &[5, 0, 5, 1, 3, 0, 3, 1, 1, 0, 1, 1, 7, 0, 7, 1],
        &[1, 2],
        &[2, 3],
    ]
    .concat();
    check(Recipe::new(2_026, 3, 4), &bytes);
}

const DOOMED_TEXT: &str = "flags 8
0 SOAK all-of
1 G001 all-of under 0
2 G002 any-of under 0
3 G003 any-of under 0
4 T004 task 42 under 1 needs 6-set leaves 6-set
5 T005 task 24 under 2 needs 4-set leaves 4-set
6 T006 task 50 under 3 needs 2-set leaves 2-set
7 T007 task 32 under 1 needs 0-set leaves 0-set
";

const CLEAR_TEXT: &str = "flags 8
0 SOAK all-of
1 G001 any-of under 0
2 G002 all-of under 0
3 G003 all-of under 0
4 T004 task 5 under 1 needs 1-clear leaves 1-clear
5 T005 task 47 under 2 needs 7-clear leaves 7-clear
6 T006 task 13 under 3 needs 4-clear leaves 4-set
7 T007 task 55 under 1 needs 2-clear leaves 2-set
8 T008 task 21 under 2 needs 0-clear leaves 0-set
order 1 2
";

const OPEN_TEXT: &str = "flags 8
0 SOAK all-of
1 G001 any-of under 0
2 G002 all-of under 0
3 G003 all-of under 0
4 T004 task 59 under 1 needs 7-clear leaves 7-set
5 T005 task 25 under 2 needs 4-clear leaves 4-set
6 T006 task 7 under 3 needs 2-clear leaves 2-set
7 T007 task 49 under 1 needs 0-clear leaves 0-set
8 T008 task 15 under 2 needs 6-clear leaves 6-set
9 T009 task 57 under 3 needs 4-set leaves 4-set
";

/// In the first T004 needs what nobody leaves before it; in the last T009 needs what T005 leaves,
/// and no order says that it comes later.
#[test]
fn of_each_verdict() {
    for (recipe, text, want) in [
        (Recipe::new(67_000, 3, 4), DOOMED_TEXT, DOOMED),
        (Recipe::new(123_456_789, 3, 5), CLEAR_TEXT, CLEAR),
        (Recipe::new(300_000_000, 3, 6), OPEN_TEXT, OPEN),
    ] {
        let bytes = plan(text);
        check(recipe, &bytes);
        assert_eq!(verdict(&bytes), want, "{recipe:?}");
    }
}

/// The rows of `samples/README.md`.
#[test]
fn sample_of_the_bench() {
    let bytes = sample("generated");
    for seed in [0, 1, 978] {
        check(Recipe::new(seed, 3, 7), &bytes);
    }
    assert_ne!(generated(Recipe::new(979, 3, 7)), bytes);
    for (groups, tasks) in [(3, 2), (0, 7), (3, 61), (61, 61)] {
        let recipe = Recipe::new(1, groups, tasks);
        assert_eq!(generate(recipe, &[]).returned, 30, "{recipe:?}");
    }
    assert_eq!(
        listed(&bytes),
        "CLEAR 98\nT005 41\nT008 41\nT004 0\nT006 0\nT007 0\nT009 0\nT010 0\n"
    );
}

/// A hash of bytes (FNV-1a of 64 bits).
fn hash(bytes: &[u8]) -> u64 {
    bytes.iter().fold(0xCBF2_9CE4_8422_2325, |hash, &byte| {
        (hash ^ u64::from(byte)).wrapping_mul(0x0000_0100_0000_01B3)
    })
}

/// The published hashes of some bytes.
#[test]
fn hashes() {
    assert_eq!(hash(b""), 0xCBF2_9CE4_8422_2325);
    assert_eq!(hash(b"a"), 0xAF63_DC4C_8601_EC8C);
    assert_eq!(hash(b"foobar"), 0x8594_4171_F739_67E8);
}

/// Large plans. Of 60 groups, whatever the seed is, 28 to 31 are ordered before the next, so that a
/// plan of 60 groups and 60 tasks has 1,400 to 1,406 bytes.
#[test]
fn large() {
    for (seed, [groups, tasks], len, want) in [
        (0, [60, 60], 1_404, 0xDA08_D126_532B_2D6A),
        (1, [60, 60], 1_404, 0xDA08_D126_532B_2D6A),
        (u32::MAX, [60, 60], 1_404, 0xDA08_D126_532B_2D6A),
        (2_026, [60, 60], 1_404, 0x07F7_E615_444A_CB11),
        (3_651_005, [60, 60], 1_406, 0xCBD0_0F2F_2E62_AA6A),
        (1_073_825, [60, 60], 1_400, 0x591A_48F8_61B9_8F07),
        (987_654_321, [59, 60], 1_394, 0x8F26_9E5B_EA68_CEA7),
        (123_456_789, [30, 45], 922, 0x8E24_6EA6_5FE0_768B),
        (1 << 31, [7, 60], 928, 0x7E22_BC80_2F79_BA7B),
        (0xFFFF_0000, [2, 60], 882, 0xC5AF_AB6F_BB20_EFC0),
        (0xDEAD_BEEF, [1, 60], 872, 0x8495_FD0D_64B6_F72E),
        (42, [20, 20], 484, 0x330C_D997_58B2_D6A9),
    ] {
        let recipe = Recipe::new(seed, groups, tasks);
        let plan = generated(recipe);
        assert_eq!((plan.len(), hash(&plan)), (len, want), "{recipe:?}");
        check(recipe, &plan);
    }
}
