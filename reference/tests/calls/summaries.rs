//! The summary of every node and the verdict.

use std::fs;
use std::path::Path;

use reference::model::calls::{Answers, Call};
use reference::model::format::{Plan, Sizes};
use reference::model::summary::summary_len;
use reference::tools::generate::clear::{clear_plan, shaken_plan};
use reference::tools::generate::{any_plan, dense_plan, plan, LIMITS, SHAPES};
use reference::tools::random::Random;
use reference::tools::scenario::any_number;
use reference::tools::scenario::tally::Tally;
use reference::tools::scenario::Case;

/// How many entries have each mark, and how many entries there are.
#[derive(Default)]
pub struct Marked {
    set: [usize; 8],
    entries: usize,
}

impl Marked {
    /// Both values of each mark were met so often.
    pub fn at_least(&self, least: usize) {
        let Marked { set, entries } = self;
        println!("{entries} entries, of which so many have each mark: {set:?}");
        let both = |&count: &usize| count >= least && entries - count >= least;
        assert!(set.iter().all(both));
    }

    pub fn add(&mut self, answers: &Answers) {
        for entry in answers.marks().unwrap().concat() {
            self.entries += 1;
            for (count, value) in self.set.iter_mut().zip(entry.in_order()) {
                *count += usize::from(value);
            }
        }
    }
}

/// The verdict and the summary of every node, with output of 16V bytes and up to 9 more.
pub fn every_node(tally: &mut Tally, random: &mut Random, plan: &Plan, answers: &Answers) {
    let bytes = plan.bytes();
    for call in (0..plan.nodes.len())
        .map(Call::Summary)
        .chain([Call::Verdict])
    {
        let len = summary_len(plan) + random.below(10);
        let case = Case {
            call,
            plan: bytes.clone(),
            blocked: answers.blocked().to_vec(),
            lent: random.bytes(len),
        };
        tally.compare(answers, &case);
    }
}

/// Marks 0 to 6 straight from their definitions over runs. The more nodes, the fewer plans.
pub fn small(tally: &mut Tally) {
    let mut random = Random::new(71);
    let mut marked = Marked::default();
    let plans = [300, 2_000, 6_000, 8_000, 6_000, 3_000, 1_500, 400, 100, 20];
    for (nodes, plans) in (1..).zip(plans) {
        for _ in 0..plans {
            let plan = dense_plan(&mut random, nodes);
            let answers = Answers::by_runs(&plan.bytes());
            every_node(tally, &mut random, &plan, &answers);
            marked.add(&answers);
        }
    }
    marked.at_least(1_000);
}

/// Plans of 128 nodes and 64 flags.
pub fn large(tally: &mut Tally) {
    let mut random = Random::new(75);
    let mut plans: Vec<Plan> = Vec::new();
    for shape in SHAPES {
        for (conditions, orders) in [(60, 0), (200, 512), (1_024, 100), (1_024, 512)] {
            let sizes = Sizes {
                conditions,
                orders,
                ..LIMITS
            };
            plans.push(plan(&mut random, sizes, shape));
            plans.push(clear_plan(&mut random, sizes, shape));
            for shape in [shape, shape.without_optional()] {
                plans.extend((0..2).map(|_| shaken_plan(&mut random, sizes, shape)));
            }
        }
    }
    let mut marked = Marked::default();
    for plan in plans {
        let answers = Answers::by_rules(&plan.bytes());
        every_node(tally, &mut random, &plan, &answers);
        marked.add(&answers);
    }
    marked.at_least(500);
}

/// The plans in `samples/`, refused ones too.
pub fn samples(tally: &mut Tally) {
    let folder = Path::new(env!("CARGO_MANIFEST_DIR")).join("../samples");
    let files = fs::read_dir(folder)
        .unwrap()
        .map(|file| file.unwrap().path());
    let plans = files.filter(|path| path.extension().is_some_and(|end| end == "plan"));
    for path in plans {
        let plan = fs::read(path).unwrap();
        let answers = Answers::by_rules(&plan);
        for call in (0..130).map(Call::Summary).chain([Call::Verdict]) {
            let case = Case {
                call,
                plan: plan.clone(),
                blocked: Vec::new(),
                lent: vec![7; 1_030],
            };
            tally.compare(&answers, &case);
        }
    }
}

/// For every number of flags: output of no byte, of every length up to 20 from 16V, and of more.
pub fn lengths(tally: &mut Tally) {
    let mut random = Random::new(73);
    for flags in 1..=64 {
        let most = Sizes {
            nodes: 12,
            conditions: 60,
            orders: 12,
            flags,
        };
        let mut plan = any_plan(&mut random, most);
        plan.flags = flags as u16;
        let answers = Answers::by_rules(&plan.bytes());
        let needed = summary_len(&plan);
        let around = needed.saturating_sub(20)..=needed + 20;
        for len in around.chain([0, 1, needed / 2, 2 * needed, 4_096]) {
            let nodes = plan.nodes.len();
            for node in [0, nodes - 1, nodes, any_number(&mut random, &plan)] {
                let case = Case {
                    call: Call::Summary(node),
                    plan: plan.bytes(),
                    blocked: Vec::new(),
                    lent: random.bytes(len),
                };
                tally.compare(&answers, &case);
            }
        }
    }
}
