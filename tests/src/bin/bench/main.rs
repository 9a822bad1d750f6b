//! Speed of the proved library and the proved gallery program beside the model's, all built for release, in one run and on the
//! same work; what both give is compared. A ratio is the proved code's time over the model's: below 1 it is the faster one.
//! The library's calls go through C and are not inlined; nor are the model's. Both take turns, and the best round of each
//! counts, so that a busy neighbour of the machine slows none alone.

mod before;
mod clients;
mod codec;
mod gallery;
mod packet;
mod process;
mod steps;

use std::time::{Duration, Instant};

const ROUNDS: usize = 7;

/// Nanoseconds for each of `count` pieces of work.
fn each(time: Duration, count: usize) -> f64 {
    time.as_nanos() as f64 / count as f64
}

/// One line of the table.
fn row(name: &str, count: usize, ours: Duration, theirs: Duration) {
    let ratio = ours.as_secs_f64() / theirs.as_secs_f64();
    println!("{name:<42}{:>10.1}{:>10.1}{ratio:>8.2}", each(ours, count), each(theirs, count));
}

fn timed(work: &mut dyn FnMut() -> u64) -> (Duration, u64) {
    let start = Instant::now();
    let sum = work();
    (start.elapsed(), sum)
}

/// The best of several rounds of each, taken in turns; each round gives a sum that all must agree on.
fn best<const N: usize>(name: &str, mut works: [&mut dyn FnMut() -> u64; N]) -> [Duration; N] {
    let mut best = [Duration::MAX; N];
    for _ in 0..ROUNDS {
        let mut sums = vec![];
        for (best, work) in best.iter_mut().zip(&mut works) {
            let (time, sum) = timed(work);
            *best = time.min(*best);
            sums.push(sum);
        }
        assert!(sums.iter().all(|sum| *sum == sums[0]), "{name}: all did the same");
    }
    best
}

fn compare(name: &str, count: usize, ours: &mut dyn FnMut() -> u64, theirs: &mut dyn FnMut() -> u64) {
    let [a, b] = best(name, [ours, theirs]);
    row(name, count, a, b);
}

fn main() {
    // With one of these words this process plays the model's part.
    match std::env::args().nth(1).as_deref() {
        Some(gallery::MODEL) => return gallery::play_model(),
        _ => (),
    }
    println!("{:<42}{:>10}{:>10}{:>8}", "nanoseconds each", "proved", "model", "ratio");
    codec::run();
    packet::run();
    steps::run();
    clients::run();
    gallery::run();
}
