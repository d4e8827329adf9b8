//! The verdict by the archive and by plain Rust: the table of docs/benchmark.md.

use std::hint::black_box;

use reference::model::calls::{make, Call};
use reference::model::verdict::Verdict;
use reference::tools::archive;

use crate::plain;
use crate::plans::of_verdict;
use crate::timing::{grouped, least, median, medians, SAMPLES};

/// So many rounds over all plans: of each plan the least times count, and the ratio in the middle.
const ROUNDS: usize = 4;

struct Timed {
    shape: &'static str,
    word: &'static str,
    bytes: Vec<u8>,
}

/// All plans. What is timed must be right.
fn plans() -> Vec<Timed> {
    let mut all = Vec::new();
    for verdict in [Verdict::Clear, Verdict::Doomed, Verdict::Open] {
        for (shape, plan) in of_verdict(verdict) {
            let (word, bytes) = (verdict.word(), plan.bytes());
            agree(&bytes);
            all.push(Timed { shape, word, bytes });
        }
    }
    all
}

pub fn print() {
    let plans = plans();
    let round = |_| plans.iter().map(|plan| by_both(&plan.bytes)).collect();
    let rounds: Vec<Vec<[f64; 2]>> = (0..ROUNDS).map(round).collect();
    println!("| plan | verdict | bytes | archive, µs | plain, µs | ratio |");
    println!("|---|---|---|---|---|---|");
    for (at, Timed { shape, word, bytes }) in plans.iter().enumerate() {
        let times = || rounds.iter().map(|round| round[at]);
        let archive = least(times().map(|[archive, _]| archive));
        let plain = least(times().map(|[_, plain]| plain));
        let (len, ratio) = (grouped(bytes.len()), middle(times()));
        println!("| {shape} | {word} | {len} | {archive:.1} | {plain:.1} | {ratio:.2} |");
    }
    let middles = rounds.iter().map(|round| middle(round.iter().copied()));
    let middles: Vec<String> = middles.map(|ratio| format!("{ratio:.2}")).collect();
    let (middles, memory) = (middles.join(", "), grouped(plain::BUFFERS));
    println!("\nMedians of {SAMPLES} samples; the ratio in the middle of each round: {middles}.");
    println!("The plain program works in {memory} bytes.");
}

/// Makes each of these calls once, the archive's first.
pub fn once() {
    for Timed { shape, word, .. } in plans() {
        println!("{shape} {word}");
    }
}

/// The ratio in the middle.
fn middle(times: impl Iterator<Item = [f64; 2]>) -> f64 {
    median(times.map(|[archive, plain]| archive / plain).collect())
}

/// The verdict's time by the archive and by the plain program.
fn by_both(bytes: &[u8]) -> [f64; 2] {
    let mut lent = bytes.to_vec();
    medians([
        &mut || archive::verdict(black_box(&mut lent), black_box(&mut [])),
        &mut || plain::verdict(black_box(bytes)),
    ])
}

fn agree(bytes: &[u8]) {
    let want = make(&Call::Verdict, bytes, &[], &mut []);
    let found = archive::make(&Call::Verdict, &mut bytes.to_vec(), &[], &mut []);
    assert_eq!([found, plain::verdict(bytes)], [want; 2]);
}
