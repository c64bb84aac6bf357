//! The program: lines however they arrive, and what is printed for them.

mod common;

use std::io::{self, Read, Write};

use second::program::{run, transcript};
use second::random::Scribe;
use second::Session;

/// Input that arrives in pieces of this size.
struct Pieces<'a> {
    rest: &'a [u8],
    size: usize,
}

impl Read for Pieces<'_> {
    fn read(&mut self, out: &mut [u8]) -> io::Result<usize> {
        let length = self.size.min(self.rest.len()).min(out.len());
        let (piece, rest) = self.rest.split_at(length);
        out[..length].copy_from_slice(piece);
        self.rest = rest;
        Ok(length)
    }
}

fn random_script(seed: u64, lines: usize) -> Vec<u8> {
    let mut scribe = Scribe::new(seed);
    let mut session = Session::open();
    let mut script = Vec::new();
    for _ in 0..lines {
        let line = scribe.line(&session);
        second::program::dispatch(&mut session, &line, &mut [0; 8], &mut [0; 64]);
        script.extend_from_slice(&line);
        script.push(b'\n');
    }
    script
}

#[test]
fn input_in_pieces() {
    for seed in 0..5 {
        let rest = &random_script(seed, 500)[..];
        for size in [1, 2, 7, 100, 4096] {
            let mut output = Vec::new();
            run(Pieces { rest, size }, &mut output).expect("memory doesn't fail");
            assert_eq!(output, transcript(rest));
        }
    }
}

#[test]
fn the_last_newline_is_optional() {
    let script = random_script(9, 300);
    let without = script.strip_suffix(b"\n").expect("a last newline");
    assert_eq!(transcript(&script), transcript(without));
    assert_eq!(transcript(b""), b"nodes=0 results=0 pending=0\n");
    let one = b"line=1 refused=10\nnodes=0 results=0 pending=0\n";
    assert_eq!(transcript(b"\n"), one);
    assert_eq!(transcript(b" "), one);
}

#[test]
fn an_unlinks_count_is_printed() {
    let script = "call=add value=5\n\
                  call=link key=2 to=1\n\
                  call=link key=2 to=1\n\
                  call=unlink key=2 to=1,9\n\
                  call=unlink key=2 to=1\n\
                  step=drain\n\
                  claim=4\n";
    let output = "label=4 value=2 left=9\n\
                  nodes=1 results=4 pending=0\n\
                  key=1 value=5 links=\n\
                  label=1 value=1 left=\n\
                  label=2 value=0 left=\n\
                  label=3 value=0 left=\n\
                  label=5 value=0 left=\n";
    assert_eq!(transcript(script.as_bytes()), output.as_bytes());
}

/// Numbers have no sign where they are read and written.
#[test]
fn a_top_below_zero_is_printed() {
    let script = "call=add value=4294967295\n\
                  call=add value=2147483648\n\
                  call=top start=2147483648 to=1,2\n\
                  call=top start=-2147483648 to=1,2\n\
                  call=top start=2147483648 to=2,9\n\
                  call=add value=3\n\
                  call=top start=2147483648 to=1,3\n\
                  step=drain\n\
                  claim=3\n";
    let output = "line=4 refused=10\n\
                  label=3 value=4294967295 left=\n\
                  nodes=3 results=5 pending=0\n\
                  key=3 value=3 links=\n\
                  key=2 value=2147483648 links=\n\
                  key=1 value=4294967295 links=\n\
                  label=1 value=1 left=\n\
                  label=2 value=2 left=\n\
                  label=4 value=2147483648 left=9\n\
                  label=5 value=3 left=\n\
                  label=6 value=3 left=\n";
    assert_eq!(transcript(script.as_bytes()), output.as_bytes());
}

#[test]
fn an_unmap_is_printed_as_a_map() {
    let script = "call=add value=5\n\
                  call=unmap a=3 b=4 to=1\n\
                  call=unmap a=2 b=4 to=1\n\
                  step=drain\n\
                  claim=2\n\
                  call=map a=3 b=4 to=1,9\n\
                  call=unmap a=3 b=4 to=1,9\n\
                  call=map a=3 b=4 to=1\n\
                  step=drain\n";
    let output = "line=3 refused=40\n\
                  label=2 value=0 left=\n\
                  nodes=1 results=4 pending=0\n\
                  key=1 value=5 links=\n\
                  label=1 value=1 left=\n\
                  label=3 value=0 left=9\n\
                  label=4 value=0 left=9\n\
                  label=5 value=0 left=\n";
    assert_eq!(transcript(script.as_bytes()), output.as_bytes());
}

/// Counts the bytes that were written and not flushed yet.
struct Held(usize);

impl Write for Held {
    fn write(&mut self, bytes: &[u8]) -> io::Result<usize> {
        self.0 += bytes.len();
        Ok(bytes.len())
    }

    fn flush(&mut self) -> io::Result<()> {
        self.0 = 0;
        Ok(())
    }
}

#[test]
fn nothing_is_held_at_the_end() {
    let mut output = Held(0);
    let input = &b"x\nclaim=1\n"[..];
    run(input, &mut output).expect("memory doesn't fail");
    assert_eq!(output.0, 0);
}
