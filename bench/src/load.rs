//! Loads from some seeds. They lend no image, so no copy's time is to be taken off.

use std::hint::black_box;

use hosts::{Host, LOAD_BYTES, PRODUCT};

use crate::{stack, timing};

/// The most lines that a load has.
pub const LINES: u32 = 64;
/// The seeds are the numbers below this.
pub const SEEDS: u32 = 100;

/// What is asked of every seed.
pub struct Load {
    pub name: &'static str,
    count: u32,
    room: usize,
}

pub fn loads() -> [Load; 4] {
    [
        load("load", LINES, LOAD_BYTES, 0),
        load("load, measured first", LINES, LOAD_BYTES - 1, 0),
        load("load, 46", LINES + 1, LOAD_BYTES, 46),
        load("load, 47", LINES, 0, 47),
    ]
}

fn load(name: &'static str, count: u32, room: usize, refusal: i64) -> Load {
    let load = Load { name, count, room };
    for seed in 0..SEEDS {
        let answer = load.serve(&PRODUCT, seed, &mut [0; LOAD_BYTES]);
        assert_eq!(-answer.min(0), refusal, "{name}");
    }
    load
}

impl Load {
    /// Nanoseconds of one: the mean over the seeds.
    pub fn ns(&self, host: &Host) -> f64 {
        let mut out = [0; LOAD_BYTES];
        let ns = timing::best_ns(|| {
            for seed in 0..SEEDS {
                black_box(self.serve(host, black_box(seed), &mut out));
            }
        });
        ns / f64::from(SEEDS)
    }

    /// How many lines it makes, if it is not refused.
    pub fn lines(&self) -> Option<f64> {
        let made = self.serve(&PRODUCT, 0, &mut [0; LOAD_BYTES]) > 0;
        made.then_some(f64::from(self.count))
    }

    /// The most stack that a seed takes.
    pub fn stack_bytes(&self) -> usize {
        let mut out = [0; LOAD_BYTES];
        let mut used = |seed| {
            stack::used(|| {
                self.serve(&PRODUCT, seed, &mut out);
            })
        };
        (0..SEEDS).map(&mut used).max().unwrap_or(0)
    }

    fn serve(&self, host: &Host, seed: u32, out: &mut [u8]) -> i64 {
        host.load(seed, self.count, &mut out[..self.room])
    }
}
