//! Other refusals.

use reference::model::format::{Sizes, HEAD};
use reference::model::rules::refusal;
use reference::tools::edit::edit;
use reference::tools::generate::any_plan;
use reference::tools::generate::pairs::{agree, partner};
use reference::tools::random::Random;
use reference::tools::scenario::merged::Pair;
use reference::tools::scenario::tally::Tally;

use super::super::limits;
use super::Others;

/// What a merge call is to look at.
struct Met<'a> {
    plans: [&'a [u8]; 2],
    /// 0 to 14 of each plan.
    refusals: [u32; 2],
    /// The length of the output.
    room: usize,
}

impl Met<'_> {
    fn sizes(&self) -> [Sizes; 2] {
        self.plans.map(Sizes::read)
    }

    /// Nodes, conditions and orders of both, without a root.
    fn sums(&self) -> [usize; 3] {
        let [one, other] = self.sizes();
        [
            one.nodes + other.nodes,
            one.conditions + other.conditions,
            one.orders + other.orders,
        ]
    }

    /// The length of the merged plan.
    fn len(&self) -> usize {
        let [one, other] = self.plans;
        one.len() + other.len() - HEAD + 8
    }

    /// 33 by these greatest sums.
    fn beyond(&self, most: [usize; 3]) -> u32 {
        let sums = self.sums();
        when(33, (0..3).any(|size| sums[size] > most[size]))
    }

    /// 34 by so many flags.
    fn differ(&self, flags: usize) -> u32 {
        let [one, other] = self.plans;
        let bit = |plan: &[u8], flag: usize| plan[8 + flag / 8] >> (flag % 8) & 1;
        when(
            34,
            (0..flags).any(|flag| bit(one, flag) != bit(other, flag)),
        )
    }

    /// 34 by the flags that both have.
    fn both_differ(&self) -> u32 {
        let [one, other] = self.sizes();
        self.differ(one.flags.min(other.flags))
    }

    /// 15.
    fn short(&self) -> u32 {
        when(15, self.room < self.len())
    }
}

fn when(number: u32, applies: bool) -> u32 {
    if applies {
        number
    } else {
        0
    }
}

/// The sums that pass: with a root there are 128 nodes.
const MOST: [usize; 3] = [127, 1_024, 512];

/// The refusal, or 0.
type Rule = fn(&Met) -> u32;

/// The first that is not 0 of 1 to 14 of the first plan, of the second, and then these.
fn after_both(met: &Met, then: impl FnOnce() -> [u32; 3]) -> u32 {
    match met.refusals {
        [0, 0] => first_of(then()),
        [first, second] => first_of([first, second, 0]),
    }
}

fn first_of(numbers: [u32; 3]) -> u32 {
    let mut met = numbers.into_iter().filter(|&number| number != 0);
    met.next().unwrap_or(0)
}

/// With these greatest sums.
fn by_sums(met: &Met, most: [usize; 3]) -> u32 {
    after_both(met, || [met.beyond(most), met.both_differ(), met.short()])
}

fn right(met: &Met) -> u32 {
    by_sums(met, MOST)
}

const RULES: [(&str, Rule); 16] = [
    ("the second plan's checks first", |met| match met.refusals {
        [_, 0] => right(met),
        [_, second] => second,
    }),
    ("the lower number of both", |met| match met.refusals {
        [0, _] | [_, 0] => right(met),
        [first, second] => first.min(second),
    }),
    ("the second plan unchecked", |met| match met.refusals {
        [0, second] if second != 0 => 0,
        _ => right(met),
    }),
    ("33 before the second plan's checks", |met| {
        let told = met.refusals[0] == 0 && met.plans[1].len() >= HEAD;
        first_of([if told { met.beyond(MOST) } else { 0 }, right(met), 0])
    }),
    ("34 before 33", |met| {
        after_both(met, || [met.both_differ(), right(met), 0])
    }),
    ("15 before 34", |met| {
        after_both(met, || [met.beyond(MOST), met.short(), right(met)])
    }),
    ("15 before 33", |met| {
        after_both(met, || [met.short(), right(met), 0])
    }),
    ("the root not counted", |met| {
        by_sums(met, [128, 1_024, 512])
    }),
    ("128 nodes are too many", |met| {
        by_sums(met, [126, 1_024, 512])
    }),
    ("1,024 conditions are too many", |met| {
        by_sums(met, [127, 1_023, 512])
    }),
    ("512 orders are too many", |met| {
        by_sums(met, [127, 1_024, 511])
    }),
    ("no limit", |met| by_sums(met, [usize::MAX; 3])),
    ("64 flags together", |met| {
        let flags = || met.sizes().iter().map(|sizes| sizes.flags).sum::<usize>();
        after_both(met, || [when(33, flags() > 64), right(met), 0])
    }),
    ("a flag that one lacks is clear", |met| {
        after_both(met, || [met.beyond(MOST), met.differ(64), met.short()])
    }),
    ("starts of both may differ", |met| {
        after_both(met, || [met.beyond(MOST), met.short(), 0])
    }),
    ("room for both plans as they are", |met| {
        let len = met.plans.concat().len();
        let short = when(15, met.room < len);
        after_both(met, || [met.beyond(MOST), met.both_differ(), short])
    }),
];

pub fn told_apart(tally: &mut Tally) {
    let mut random = Random::new(275);
    let mut others = Others::default();
    for at in 0..1_500 {
        let pair = match at % 5 {
            0 => limits::pair(&mut random),
            _ => damaged_pair(&mut random),
        };
        let refusals = pair.plans.each_ref().map(|plan| refusal(plan));
        for room in pair.lengths() {
            let returned = tally.merge(&pair, &random.bytes(room)).returned;
            let [first, second] = &pair.plans;
            let met = Met {
                plans: [first, second],
                refusals,
                room,
            };
            let refused = |number: u32| if number < 256 { number } else { 0 };
            assert_eq!(right(&met), refused(returned));
            for (name, rule) in RULES {
                others.count(name, rule(&met) != refused(returned));
            }
        }
    }
    others.assert("refusals of merges", RULES.len(), 40);
}

/// Plans that fit together or do not, are damaged or not, and start alike or not.
fn damaged_pair(random: &mut Random) -> Pair {
    let most = Sizes {
        nodes: random.pick(&[4, 10, 128, 128]),
        conditions: 40,
        orders: 20,
        flags: 64,
    };
    let one = any_plan(random, most);
    let mut other = match random.below(2) {
        0 => any_plan(random, most),
        _ => partner(random, &one),
    };
    if random.below(2) == 0 {
        agree(&one, &mut other);
    }
    let mut plans = [one, other];
    for plan in &mut plans {
        if random.below(3) == 0 {
            edit(plan, random);
        }
    }
    let mut plans = plans.map(|plan| plan.bytes());
    random.shuffle(&mut plans);
    if random.below(16) == 0 {
        plans[1].truncate(random.below(16));
    }
    Pair::new(plans)
}
