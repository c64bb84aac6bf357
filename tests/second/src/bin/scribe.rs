//! Prints a seeded random script: `scribe SEED LINES`.
//!
//! The lines are made for a session that serves them on the way, so that most of
//! them are accepted and the streams get full.

use std::io::{self, BufWriter, Write};

use second::random::Scribe;
use second::Session;

fn main() -> io::Result<()> {
    let mut numbers = std::env::args().skip(1).map(|text| text.parse::<u64>());
    let (Some(Ok(seed)), Some(Ok(lines))) = (numbers.next(), numbers.next()) else {
        eprintln!("usage: scribe SEED LINES");
        std::process::exit(2);
    };
    let mut scribe = Scribe::new(seed);
    let mut session = Session::open();
    let mut output = BufWriter::new(io::stdout().lock());
    for _ in 0..lines {
        let line = scribe.line(&session);
        second::program::dispatch(&mut session, &line, &mut [0; 8], &mut [0; 64]);
        output.write_all(&line)?;
        output.write_all(b"\n")?;
    }
    output.flush()
}
