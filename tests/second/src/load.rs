//! The load of S-14: call lines that anyone makes again from the same seed.

use crate::line::{Call, To};
use crate::print::call_line;
use crate::refusal::Refusal;
use crate::session::Act;

/// A load has at most this many lines.
const LINES: u32 = 64;

/// The lines of a load. "It refuses with 46 a count above 64."
pub fn lines(seed: u32, count: u32) -> Result<Vec<u8>, Refusal> {
    if count > LINES {
        return Err(Refusal::LoadCount);
    }
    let mut draws = Draws { state: seed };
    let mut lines = Vec::new();
    for _ in 0..count {
        lines.extend_from_slice(call_line(&draws.call()).as_bytes());
    }
    Ok(lines)
}

/// The draws of a load. The seed is the state before the first.
struct Draws {
    state: u32,
}

impl Draws {
    /// "Each state is 1,664,525 × the last + 1,013,904,223, modulo 4,294,967,296; a draw
    /// is the state divided by 65,536, remainder dropped."
    fn draw(&mut self) -> u32 {
        self.state = self.state.wrapping_mul(1_664_525);
        self.state = self.state.wrapping_add(1_013_904_223);
        self.state / 65_536
    }

    /// "A draw modulo 8 picks the call in document 01's order from add. Fields follow in
    /// line order."
    fn call(&mut self) -> Call {
        match self.draw() % 8 {
            0 => {
                let value = self.number();
                Call::Add { value }
            }
            1 => {
                let a = self.number();
                let b = self.number();
                self.visit(Act::Map { a, b })
            }
            2 => {
                let key = self.key();
                self.visit(Act::Link { key, full: 0 })
            }
            3 => {
                let key = self.key();
                self.visit(Act::Unlink { key, removed: 0 })
            }
            4 => {
                let held = self.number();
                self.visit(Act::Sum { held })
            }
            5 => {
                let held = self.number();
                self.visit(Act::Top { held })
            }
            6 => {
                let held = self.number();
                self.visit(Act::Pick { held })
            }
            _ => {
                let key = self.key();
                let held = self.number();
                self.visit(Act::Near { key, held })
            }
        }
    }

    /// A call whose last field is its targets, once the fields before them are known.
    fn visit(&mut self, act: Act) -> Call {
        let to = To::Keys(self.targets());
        Call::Visit { act, to }
    }

    /// "A number is a draw."
    fn number(&mut self) -> u32 {
        self.draw()
    }

    /// "A key 1 + a draw modulo 64."
    fn key(&mut self) -> u8 {
        1 + (self.draw() % 64) as u8
    }

    /// "A target list a draw modulo 9 followed by that many keys, sorted, repeats dropped."
    fn targets(&mut self) -> Vec<u8> {
        let count = self.draw() % 9;
        let mut keys: Vec<u8> = (0..count).map(|_| self.key()).collect();
        keys.sort_unstable();
        keys.dedup();
        keys
    }
}
