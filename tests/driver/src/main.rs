//! Compares the product with the second implementation: every answer, every byte of the image and the
//! output, every count.
//!
//!     driver                the fixed checks, then the seeds that the gate always takes
//!     driver soak SECONDS   fresh seeds until the time is over
//!     driver seed SEED      each seeded check with this one
//!
//! The last line is 'N passed, M failed'.

mod fixed;
mod lent;
mod loads;
mod pages;
mod seeded;

use std::process::ExitCode;
use std::time::{Duration, Instant, SystemTime, UNIX_EPOCH};

type Seeded = fn(u64) -> Result<(), String>;

/// The seeded checks, and how many seeds the gate gives each.
const SEEDED: [(&str, Seeded, u64); 7] = [
    ("script", seeded::script, 2000),
    ("any session", seeded::any_session, 8000),
    ("damaged image", seeded::damaged_image, 20_000),
    ("any bytes", seeded::any_bytes, 8000),
    ("load", loads::seeded, 10_000),
    ("page", pages::seeded, 20_000),
    ("page read", pages::seeded_read, 100_000),
];

/// No more failures than this are told.
const TOLD: u64 = 20;

#[derive(Default)]
struct Count {
    passed: u64,
    failed: u64,
}

impl Count {
    fn check(&mut self, name: &str, result: Result<(), String>) {
        match result {
            Ok(()) => self.passed += 1,
            Err(error) => {
                self.failed += 1;
                if self.failed <= TOLD {
                    println!("FAILED: {name}: {error}");
                }
            }
        }
    }

    /// Every seeded check, with a share of the gate's number of seeds.
    fn seeds(&mut self, start: u64, share: impl Fn(u64) -> u64) {
        for (name, check, count) in SEEDED {
            for seed in (0..share(count)).map(|number| start.wrapping_add(number)) {
                self.check(&format!("{name}, seed {seed}"), check(seed));
            }
        }
    }

    fn gate(&mut self) {
        self.check("lengths", fixed::lengths());
        for (what, result) in fixed::facts() {
            self.check(what, result);
        }
        self.check("single bytes", fixed::single_bytes());
        self.check("long lines", fixed::long_lines());
        self.check("bound for all", fixed::bound_for_all());
        self.check("room", fixed::room());
        self.check("load, first line", loads::first_line());
        self.check("load, room", loads::room());
        self.check("load, counts", loads::counts());
        self.check("load, nowhere", loads::nowhere());
        self.check("page, by hand", pages::by_hand());
        self.check("page, read", pages::read());
        for (what, result) in pages::refused() {
            self.check(&format!("page, {what}"), result);
        }
        self.check("page, lengths", pages::lengths());
        self.check("page, single bytes", pages::single_bytes());
        self.check("page, room", pages::room());
        self.check("page, nowhere", pages::nowhere());
        self.seeds(0, |count| count);
        self.check("all answers and steps met", fixed::all_met());
    }

    fn soak(&mut self, time: Duration) {
        let since = SystemTime::now().duration_since(UNIX_EPOCH);
        let mut seed = since.map_or(0, |since| since.as_nanos() as u64);
        let end = Instant::now() + time;
        while Instant::now() < end {
            self.seeds(seed, |count| count / 100);
            seed = seed.wrapping_add(1_000_000);
        }
    }
}

fn main() -> ExitCode {
    let words: Vec<String> = std::env::args().skip(1).collect();
    let number = words.get(1).and_then(|word| word.parse().ok());
    let mut count = Count::default();
    match (words.first().map(String::as_str), number) {
        (None, _) => count.gate(),
        (Some("soak"), Some(seconds)) => count.soak(Duration::from_secs(seconds)),
        (Some("seed"), Some(seed)) => count.seeds(seed, |_| 1),
        _ => {
            eprintln!("usage: driver [soak SECONDS | seed SEED]");
            return ExitCode::from(2);
        }
    }
    println!("{} passed, {} failed", count.passed, count.failed);
    ExitCode::from(u8::from(count.failed > 0))
}
