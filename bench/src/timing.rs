//! The time of one piece of work.

use std::time::{Duration, Instant};

const ROUND: Duration = Duration::from_millis(1);
const ROUNDS: usize = 5;

/// Nanoseconds for one turn of the work: the best of many rounds, since what else the machine does only
/// ever adds to one.
pub fn best_ns(mut work: impl FnMut()) -> f64 {
    let mut turns = 1;
    while round(turns, &mut work) < ROUND {
        turns *= 2;
    }
    let rounds = (0..ROUNDS).map(|_| round(turns, &mut work).as_secs_f64());
    rounds.fold(f64::INFINITY, f64::min) * 1e9 / f64::from(turns)
}

fn round(turns: u32, work: &mut impl FnMut()) -> Duration {
    let start = Instant::now();
    for _ in 0..turns {
        work();
    }
    start.elapsed()
}
