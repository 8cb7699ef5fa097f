//! Rounds of the two programs in turn, and the middle of what they took.

use std::hint::black_box;
use std::time::Instant;

/// Nanoseconds of the two programs for one unit of work.
pub struct Figures {
    /// The proved machine, median.
    pub proved: f64,
    /// The second program, median.
    pub rust: f64,
    /// The ratio of the low deciles: what the medians would say on a quiet machine.
    pub low_ratio: f64,
}

impl Figures {
    /// Proved over Rust, by the medians.
    pub fn ratio(&self) -> f64 {
        self.proved / self.rust
    }
}

/// Measures both in turn, each first in every second round. A work function gives the nanoseconds of a unit.
pub fn interleaved(
    rounds: usize,
    mut proved: impl FnMut() -> f64,
    mut rust: impl FnMut() -> f64,
) -> Figures {
    // The first rounds warm the caches and count for nothing.
    for _ in 0..rounds / 10 + 1 {
        proved();
        rust();
    }
    let mut times = [Vec::new(), Vec::new()];
    for round in 0..rounds {
        if round % 2 == 0 {
            times[0].push(proved());
            times[1].push(rust());
        } else {
            times[1].push(rust());
            times[0].push(proved());
        }
    }
    for list in &mut times {
        list.sort_by(f64::total_cmp);
    }
    let low = |list: &Vec<f64>| list[list.len() / 10];
    let middle = |list: &Vec<f64>| list[list.len() / 2];
    Figures {
        proved: middle(&times[0]),
        rust: middle(&times[1]),
        low_ratio: low(&times[0]) / low(&times[1]),
    }
}

/// The nanoseconds that a piece of work takes.
pub fn nanoseconds(work: impl FnOnce()) -> f64 {
    let begun = Instant::now();
    work();
    begun.elapsed().as_nanos() as f64
}

/// The nanoseconds of a sum of words, so many times a round: every word is read once, and nothing is tested.
pub fn plain_sum(rounds: usize, words: &[u32], times: usize) -> f64 {
    let sum = || {
        nanoseconds(|| {
            for _ in 0..times {
                black_box(sum_of(black_box(words)));
            }
        }) / times as f64
    };
    interleaved(rounds, sum, sum).proved
}

/// Sixteen sums side by side: the loop then has little else to do.
fn sum_of(words: &[u32]) -> u32 {
    let blocks = words.chunks_exact(16);
    let rest = blocks.remainder();
    let sums = blocks.fold([0_u32; 16], |mut sums, block| {
        for (sum, word) in sums.iter_mut().zip(block) {
            *sum = sum.wrapping_add(*word);
        }
        sums
    });
    let all = sums.iter().chain(rest);
    all.fold(0, |sum, word| sum.wrapping_add(*word))
}
