//! What the tests share: a session with its tally, driven by lines of text.
#![allow(dead_code)] // each test file uses a part of it

use second::{program::dispatch, read_call, Call, Node, Outcome, Session, Tally};

#[derive(Clone, Debug)]
pub struct Desk {
    pub session: Session,
    pub tally: Tally,
}

impl Desk {
    pub fn new() -> Desk {
        Desk {
            session: Session::open(),
            tally: [0; 8],
        }
    }

    /// A desk that has served these lines, all of them accepted.
    pub fn after(lines: &[&str]) -> Desk {
        let mut desk = Desk::new();
        desk.all(lines);
        desk
    }

    /// Gives a line to its entry, with ample output.
    pub fn serve(&mut self, line: &[u8]) -> i64 {
        dispatch(&mut self.session, line, &mut self.tally, &mut [0; 64])
    }

    pub fn line(&mut self, line: &str) -> i64 {
        self.serve(line.as_bytes())
    }

    /// Serves lines that must all be accepted.
    pub fn all(&mut self, lines: &[&str]) {
        for line in lines {
            let answer = self.line(line);
            assert!(answer >= 0, "{line}: {answer}");
        }
    }

    /// Serves a line that must be refused with this number and change nothing.
    pub fn refuses(&mut self, number: i64, line: &str) {
        let before = self.clone();
        assert_eq!(self.line(line), -number, "{line}");
        assert_eq!(self.session, before.session, "{line}");
        assert_eq!(self.tally, before.tally, "{line}");
    }

    /// The result that stands for this label.
    pub fn result(&self, label: u16) -> (u32, &[u8]) {
        let Outcome { value, left } = &self.session.results[&label];
        (*value, left)
    }

    pub fn node(&self, key: u8) -> &Node {
        let mut nodes = self.session.stations.iter().map(|s| &s.node);
        nodes.find(|node| node.key == key).expect("such a node")
    }

    pub fn listing(&self) -> String {
        let mut out = [0; 8192];
        let length = self.session.list(&mut out) as usize;
        String::from_utf8(out[..length].to_vec()).expect("a listing is text")
    }
}

const LEAST: u32 = 2_147_483_648;

/// Whether a top takes a value, given what it holds.
pub type Order = fn(u32, u32) -> bool;

/// The signed order, worded unlike steps and meaning word it: the sign bit turned over.
pub const SIGNED: Order = |held, value| (value ^ LEAST) > (held ^ LEAST);

/// Orders that wrong programs may have. Random tests must tell each from the signed one.
pub const WRONG_ORDERS: [(&str, Order); 12] = [
    ("unsigned", |held, value| value > held),
    ("held unsigned", |held, value| {
        i64::from(value as i32) > i64::from(held)
    }),
    ("value unsigned", |held, value| {
        i64::from(value) > i64::from(held as i32)
    }),
    ("by difference", |held, value| {
        value.wrapping_sub(held) as i32 > 0
    }),
    ("magnitude", |held, value| {
        (value as i32).unsigned_abs() > (held as i32).unsigned_abs()
    }),
    ("sign and magnitude", |held, value| {
        minus(value, value ^ LEAST) > minus(held, held ^ LEAST)
    }),
    ("ones' complement", |held, value| {
        minus(value, !value) > minus(held, !held)
    }),
    ("the least above all", |held, value| {
        value.wrapping_sub(LEAST + 1) > held.wrapping_sub(LEAST + 1)
    }),
    ("the greatest below all", |held, value| {
        value.wrapping_sub(LEAST - 1) > held.wrapping_sub(LEAST - 1)
    }),
    ("upper half", |held, value| {
        (value >> 16) as i16 > (held >> 16) as i16
    }),
    ("lower half", |held, value| value as i16 > held as i16),
    ("the lesser", |held, value| (value as i32) < held as i32),
];

/// A number that is minus this magnitude where its sign bit is set.
fn minus(number: u32, magnitude: u32) -> i64 {
    if number < LEAST {
        i64::from(number)
    } else {
        -i64::from(magnitude)
    }
}

/// What a top holds in the end, by this order.
pub fn top_by(order: Order, start: u32, values: &[u32]) -> u32 {
    let keep = |held, &value| if order(held, value) { value } else { held };
    values.iter().fold(start, keep)
}

/// The numbers of the map that an unmap of these numbers submits.
pub type Undoing = fn(u32, u32) -> (u32, u32);

/// The right ones, worded unlike session and meaning word it: an odd number to the power
/// 1,073,741,824 is 1.
pub const UNDOING: Undoing = |a, b| {
    let inverse = a.wrapping_pow((1 << 30) - 1);
    (inverse, minus_product(inverse, b))
};

/// What wrong programs may submit. Random tests must tell each from the right map.
pub const WRONG_UNDOINGS: [(&str, Undoing); 14] = [
    ("the map itself", |a, b| (a, b)),
    ("the identity", |_, _| (1, 0)),
    ("a kept", |a, b| (a, minus_product(a, b))),
    ("a kept, b negated", |a, b| (a, b.wrapping_neg())),
    ("a and b negated", |a, b| {
        (a.wrapping_neg(), b.wrapping_neg())
    }),
    ("b kept", |a, b| (UNDOING(a, 0).0, b)),
    ("b negated only", |a, b| (UNDOING(a, 0).0, b.wrapping_neg())),
    ("b multiplied only", |a, b| {
        let inverse = UNDOING(a, 0).0;
        (inverse, inverse.wrapping_mul(b))
    }),
    ("b multiplied by a", |a, b| {
        (UNDOING(a, 0).0, minus_product(a, b))
    }),
    ("no b", |a, _| UNDOING(a, 0)),
    ("half of the bits", |a, b| cut(UNDOING(a, 0).0, b, 16)),
    ("a Newton step too few", |a, b| cut(UNDOING(a, 0).0, b, 24)),
    ("a bit too few", |a, b| cut(UNDOING(a, 0).0, b, 31)),
    ("a without its sign", |a, b| {
        UNDOING((a as i32).unsigned_abs(), b)
    }),
];

fn minus_product(inverse: u32, b: u32) -> u32 {
    inverse.wrapping_mul(b).wrapping_neg()
}

/// An inverse of which only so many bits are right.
fn cut(inverse: u32, b: u32, bits: u32) -> (u32, u32) {
    let inverse = inverse % (1 << bits);
    (inverse, minus_product(inverse, b))
}

/// A value after a map.
pub fn mapped((a, b): (u32, u32), value: u32) -> u32 {
    a.wrapping_mul(value).wrapping_add(b)
}

/// The calls of lines that are all of a good form.
pub fn calls(lines: &[&str]) -> Vec<Call> {
    let read = |line: &&str| read_call(line.as_bytes()).expect("a good call");
    lines.iter().map(read).collect()
}
