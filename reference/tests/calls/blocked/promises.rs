//! What users rely on: blocking more branches, or adding orders, leaves CLEAR as CLEAR and DOOMED as
//! DOOMED.

use reference::model::blocked::Remaining;
use reference::model::calls::{Answers, Call};
use reference::model::format::{Order, Plan, ALL_OF};
use reference::model::rules::refusal;
use reference::tools::generate::clear::shaken_plan;
use reference::tools::generate::{LIMITS, SHAPES};
use reference::tools::random::Random;
use reference::tools::scenario::blocked::passing;
use reference::tools::scenario::tally::Tally;
use reference::tools::scenario::together::some_of;
use reference::tools::scenario::Case;

use super::{lists_of_branches, plans};

/// What the verdict call returns.
pub const CLEAR: u32 = 128;
pub const DOOMED: u32 = 129;
pub const OPEN: u32 = 130;

/// The verdict with this list, which the reference returns too.
pub fn verdict(tally: &mut Tally, plan: &Plan, blocked: &[usize]) -> u32 {
    let case = Case {
        call: Call::Verdict,
        plan: plan.bytes(),
        blocked: blocked.to_vec(),
        lent: Vec::new(),
    };
    let answers = Answers::by_rules(&case.plan).blocking(blocked);
    tally.compare(&answers, &case).returned
}

/// How often each verdict became which.
#[derive(Default)]
struct Became([[usize; 3]; 3]);

impl Became {
    #[track_caller]
    fn kept(&mut self, before: u32, after: u32, what: impl Fn() -> String) {
        assert!(before == OPEN || after == before, "{}", what());
        self.0[before as usize - 128][after as usize - 128] += 1;
    }

    /// CLEAR and DOOMED were kept so often, and OPEN became each of the three.
    fn at_least(&self, what: &str, least: usize) {
        let [[clear, ..], [_, doomed, _], open] = self.0;
        println!("{what}: CLEAR kept {clear}, DOOMED kept {doomed}, OPEN became {open:?}");
        let all = [clear, doomed, open[0], open[1], open[2]];
        assert!(all.iter().all(|&count| count >= least));
    }
}

/// All lists of the branches of small plans, each against every one that has its numbers and more.
pub fn more_blocked(tally: &mut Tally) {
    let mut random = Random::new(181);
    let mut became = Became::default();
    for plan in plans(&mut random, 3..=9, 150) {
        let lists = lists_of_branches(&plan).take(64);
        let answered = lists.map(|list| (verdict(tally, &plan, &list), list));
        let accepted: Vec<_> = answered.filter(|(verdict, _)| *verdict >= CLEAR).collect();
        for (before, few) in &accepted {
            let more = |(_, many): &&(u32, Vec<usize>)| {
                many.len() > few.len() && few.iter().all(|node| many.contains(node))
            };
            for (after, many) in accepted.iter().filter(more) {
                became.kept(*before, *after, || format!("{few:?}, {many:?}: {plan:?}"));
            }
        }
    }
    became.at_least("more blocked", 100);
}

/// Orders added to small plans, under lists of every kind.
pub fn more_orders(tally: &mut Tally) {
    let mut random = Random::new(182);
    let mut became = Became::default();
    for plan in plans(&mut random, 4..=9, 400) {
        let ordered = with_orders(&mut random, &plan);
        for blocked in [Vec::new(), passing(&mut random, &plan)] {
            let before = verdict(tally, &plan, &blocked);
            let after = verdict(tally, &ordered, &blocked);
            became.kept(before, after, || {
                format!("{blocked:?}: {plan:?}, {ordered:?}")
            });
        }
    }
    became.at_least("more orders", 60);
}

/// Both on plans of 128 nodes.
pub fn large(tally: &mut Tally) {
    let mut random = Random::new(183);
    let mut became = Became::default();
    for shape in SHAPES {
        for _ in 0..12 {
            let plan = shaken_plan(&mut random, LIMITS, shape);
            let many = passing(&mut random, &plan);
            let few = some_of(&mut random, &many);
            if Remaining::new(&plan, &few).is_err() {
                continue;
            }
            let before = verdict(tally, &plan, &few);
            let blocked = verdict(tally, &plan, &many);
            became.kept(before, blocked, || format!("{few:?}, {many:?}: {plan:?}"));
            let ordered = with_orders(&mut random, &plan);
            let after = verdict(tally, &ordered, &few);
            became.kept(before, after, || format!("{few:?}: {plan:?}, {ordered:?}"));
        }
    }
}

/// The plan with up to three orders more, or as many as there are pairs without one. Of 512 orders
/// there may be no more.
fn with_orders(random: &mut Random, plan: &Plan) -> Plan {
    let mut ordered = plan.clone();
    let mut pairs = Vec::new();
    for later in 1..plan.nodes.len() {
        let parent = plan.nodes[later].parent;
        let siblings = (1..later).filter(|&node| plan.nodes[node].parent == parent);
        if plan.nodes[usize::from(parent)].kind == ALL_OF {
            pairs.extend(siblings.map(|earlier| Order::new(earlier as u8, later as u8)));
        }
    }
    pairs.retain(|pair| !plan.orders.contains(pair));
    random.shuffle(&mut pairs);
    pairs.truncate(random.within(1, 3).min(LIMITS.orders - plan.orders.len()));
    ordered.orders.extend(pairs);
    ordered
        .orders
        .sort_by_key(|order| (order.earlier, order.later));
    assert_eq!(refusal(&ordered.bytes()), 0);
    ordered
}
