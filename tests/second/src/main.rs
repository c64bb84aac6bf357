//! The second implementation as a program, in the place of `cgrun`.

use std::io::{self, BufWriter};

fn main() -> io::Result<()> {
    let output = BufWriter::with_capacity(1 << 16, io::stdout().lock());
    second::program::run(io::stdin().lock(), output)
}
