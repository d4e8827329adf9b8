//! The time of calls.

use std::hint::black_box;
use std::time::Instant;

/// How often each call is timed; its time is the one in the middle.
pub const SAMPLES: usize = 51;

/// A sample makes as many calls as take about so many nanoseconds, at least one.
const SAMPLE: f64 = 200_000.0;

/// The time of each call in microseconds: samples of all calls in turn, and of each the median.
pub fn medians<const N: usize>(mut calls: [&mut dyn FnMut() -> u32; N]) -> [f64; N] {
    let mut samples = [(); N].map(|()| Vec::new());
    let repeats = calls.each_mut().map(|call| {
        time(*call, 1);
        (SAMPLE / time(*call, 2)).max(1.0) as u32
    });
    for _ in 0..SAMPLES {
        for ((call, repeats), samples) in calls.iter_mut().zip(repeats).zip(&mut samples) {
            samples.push(time(*call, repeats));
        }
    }
    samples.map(|samples| median(samples) / 1_000.0)
}

/// Nanoseconds for one of so many calls.
fn time(call: &mut dyn FnMut() -> u32, repeats: u32) -> f64 {
    let begin = Instant::now();
    for _ in 0..repeats {
        black_box(call());
    }
    begin.elapsed().as_nanos() as f64 / f64::from(repeats)
}

/// The number in the middle.
pub fn median(mut numbers: Vec<f64>) -> f64 {
    numbers.sort_by(f64::total_cmp);
    numbers[numbers.len() / 2]
}

/// The least number.
pub fn least(numbers: impl Iterator<Item = f64>) -> f64 {
    numbers.fold(f64::INFINITY, f64::min)
}

/// A number as the pages write it, with a comma before its last three digits.
pub fn grouped(number: usize) -> String {
    match number {
        0..=999 => number.to_string(),
        _ => format!("{},{:03}", number / 1_000, number % 1_000),
    }
}
