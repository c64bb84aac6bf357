//! What `cgrun` does: lines in; refusals, claims and the listing out.

use std::io::{self, BufRead, BufReader, Read, Write};

use crate::session::Session;
use crate::Tally;

/// Room for any result line (58 bytes) and any listing (64 nodes, 64 results).
const OUTPUT_BYTES: usize = 8192;

const STEP: &[u8] = b"step=";
const CLAIM: &[u8] = b"claim=";

/// Serves every line of the input, then lists the session.
pub fn run(input: impl Read, mut output: impl Write) -> io::Result<()> {
    let mut server = serve_all(input, &mut output)?;
    output.write_all(&server.listing())?;
    output.flush()
}

/// Serves every line of the input, prints nothing, and gives the session at the end.
pub fn session_after(input: impl Read) -> io::Result<Session> {
    serve_all(input, &mut io::sink()).map(|server| server.session)
}

/// Serves every line of the input, and prints what is printed for them.
///
/// What was written is flushed before a read may wait, so that a partner at the
/// other end of a pipe can go line by line.
fn serve_all(input: impl Read, output: &mut impl Write) -> io::Result<Server> {
    let mut input = BufReader::with_capacity(1 << 16, input);
    let mut server = Server::new();
    let mut line = Vec::new();
    loop {
        if !input.buffer().contains(&b'\n') {
            output.flush()?;
        }
        line.clear();
        if input.read_until(b'\n', &mut line)? == 0 {
            return Ok(server);
        }
        let line = line.strip_suffix(b"\n").unwrap_or(&line);
        output.write_all(&server.serve(line))?;
    }
}

/// All that the program prints for an input.
pub fn transcript(input: &[u8]) -> Vec<u8> {
    let mut output = Vec::new();
    run(input, &mut output).expect("reading and writing memory doesn't fail");
    output
}

/// Gives a line to its entry, by how it begins: a step's, a claim's, else a call's.
pub fn dispatch(session: &mut Session, line: &[u8], tally: &mut Tally, out: &mut [u8]) -> i64 {
    if line.starts_with(STEP) {
        session.step(line, tally)
    } else if line.starts_with(CLAIM) {
        session.claim(line, out)
    } else {
        session.call(line)
    }
}

/// The session between two lines, with what the entries are lent.
struct Server {
    session: Session,
    tally: Tally,
    out: [u8; OUTPUT_BYTES],
    line: u64,
}

impl Server {
    fn new() -> Server {
        Server {
            session: Session::open(),
            tally: [0; 8],
            out: [0; OUTPUT_BYTES],
            line: 0,
        }
    }

    /// Serves the next line, and gives what is printed for it.
    fn serve(&mut self, line: &[u8]) -> Vec<u8> {
        self.line += 1;
        let answer = dispatch(&mut self.session, line, &mut self.tally, &mut self.out);
        if answer < 0 {
            format!("line={} refused={}\n", self.line, -answer).into_bytes()
        } else if line.starts_with(CLAIM) {
            self.out[..answer as usize].to_vec()
        } else {
            Vec::new()
        }
    }

    fn listing(&mut self) -> Vec<u8> {
        let length = self.session.list(&mut self.out);
        self.out[..length as usize].to_vec()
    }
}
