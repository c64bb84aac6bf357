//! A session, and its four entries: call, step, claim and list.

use std::collections::{BTreeMap, VecDeque};

use crate::line::{read_call, read_claim, read_step, Call, To, KEYS};
use crate::print;
use crate::refusal::{answer, Refusal};
use crate::Tally;

/// At most this many calls are live.
pub const LIVE: usize = 64;

/// The nodes with their streamlets, the top stream before them, and the results.
#[derive(Clone, Debug, Default, PartialEq, Eq)]
pub struct Session {
    /// Front first.
    pub stations: Vec<Station>,
    /// Accepted calls that no admit has taken yet, head first.
    pub top: VecDeque<Waiting>,
    /// Results that nobody has claimed yet, by label.
    pub results: BTreeMap<u16, Outcome>,
    /// The last label given, 0 before the first.
    pub last: u16,
}

/// A node, and the units before it, head first.
#[derive(Clone, Debug, PartialEq, Eq)]
pub struct Station {
    pub node: Node,
    pub streamlet: VecDeque<Unit>,
}

#[derive(Clone, Debug, PartialEq, Eq)]
pub struct Node {
    pub key: u8,
    pub value: u32,
    pub links: Vec<u8>,
}

/// One or more operations, in order.
pub type Unit = Vec<Operation>;

/// A call on its way through the nodes, or several maps fused into one.
#[derive(Clone, Debug, PartialEq, Eq)]
pub struct Operation {
    pub act: Act,
    pub targets: Targets,
    /// More than one only for maps that were fused.
    pub labels: Vec<u16>,
}

/// Where an operation has yet to act.
#[derive(Clone, Debug, PartialEq, Eq)]
pub enum Targets {
    /// At the keys not struck yet, rising.
    Keys(Vec<u8>),
    /// At each station that it meets. The mark says that it has acted at this one; an
    /// all-call that waits has none.
    All { done: bool },
}

/// What an operation does at a target, with the value that it holds so far.
/// Numbers have no sign here; only where a top compares two do they count as signed.
#[derive(Clone, Debug, PartialEq, Eq)]
pub enum Act {
    Map { a: u32, b: u32 },
    Link { key: u8, full: u32 },
    Unlink { key: u8, removed: u32 },
    Sum { held: u32 },
    Top { held: u32 },
    Pick { held: u32 },
    Near { key: u8, held: u32 },
}

/// A call in the top stream.
#[derive(Clone, Debug, PartialEq, Eq)]
pub enum Waiting {
    Add { label: u16, value: u32 },
    Visit(Operation),
}

/// A result: its value, and the targets that were not met.
#[derive(Clone, Debug, PartialEq, Eq)]
pub struct Outcome {
    pub value: u32,
    pub left: Vec<u8>,
}

impl Session {
    /// A fresh session.
    pub fn open() -> Session {
        Session::default()
    }

    /// Serves a call line: the label, or a refusal.
    pub fn call(&mut self, line: &[u8]) -> i64 {
        answer(self.accept(line).map(i64::from))
    }

    /// Serves a step line: 0, or a refusal.
    pub fn step(&mut self, line: &[u8], tally: &mut Tally) -> i64 {
        answer(read_step(line).and_then(|step| self.take(step, tally).map(|()| 0)))
    }

    /// Serves a claim line: the length written, or a refusal.
    pub fn claim(&mut self, line: &[u8], out: &mut [u8]) -> i64 {
        answer(self.give(line, out))
    }

    /// Writes the listing: the length written, or a refusal.
    pub fn list(&self, out: &mut [u8]) -> i64 {
        answer(print::write(&print::listing(self), out))
    }

    fn accept(&mut self, line: &[u8]) -> Result<u16, Refusal> {
        let call = read_call(line)?;
        let is_add = matches!(call, Call::Add { .. });
        if is_add && self.adds() >= usize::from(KEYS) {
            return Err(Refusal::AddsSpent);
        }
        if self.live() >= LIVE {
            return Err(Refusal::LiveFull);
        }
        let label = self.last.checked_add(1).ok_or(Refusal::LabelsSpent)?;
        self.last = label;
        self.top.push_back(Waiting::new(call, label));
        Ok(label)
    }

    fn give(&mut self, line: &[u8], out: &mut [u8]) -> Result<i64, Refusal> {
        let label = match u16::try_from(read_claim(line)?) {
            Ok(label) if (1..=self.last).contains(&label) => label,
            _ => return Err(Refusal::NeverGiven),
        };
        if self.pending_labels().any(|pending| pending == label) {
            return Err(Refusal::Pending);
        }
        let outcome = self.results.get(&label).ok_or(Refusal::Claimed)?;
        let length = print::write(&print::result_line(label, outcome), out)?;
        self.results.remove(&label);
        Ok(length)
    }

    /// Every operation, in the streamlets and in the top stream.
    pub fn operations(&self) -> impl Iterator<Item = &Operation> {
        let streamlets = self.stations.iter().flat_map(|s| s.streamlet.iter());
        let waiting = self.top.iter().filter_map(Waiting::operation);
        streamlets.flatten().chain(waiting)
    }

    fn waiting_adds(&self) -> impl Iterator<Item = u16> + '_ {
        self.top.iter().filter_map(|waiting| match waiting {
            Waiting::Add { label, .. } => Some(*label),
            Waiting::Visit(_) => None,
        })
    }

    /// The labels of all pending calls.
    pub fn pending_labels(&self) -> impl Iterator<Item = u16> + '_ {
        let visits = self.operations().flat_map(|op| op.labels.iter().copied());
        visits.chain(self.waiting_adds())
    }

    /// The number of pending calls.
    pub fn pending(&self) -> usize {
        self.pending_labels().count()
    }

    /// The number of calls whose result nobody has claimed.
    pub fn live(&self) -> usize {
        self.pending() + self.results.len()
    }

    /// Nodes and waiting adds together.
    pub fn adds(&self) -> usize {
        self.stations.len() + self.waiting_adds().count()
    }
}

impl Station {
    pub fn new(key: u8, value: u32) -> Station {
        let links = Vec::new();
        Station {
            node: Node { key, value, links },
            streamlet: VecDeque::new(),
        }
    }
}

impl Act {
    /// The map that undoes the one of an odd a and this b: b goes, then a is divided out.
    fn undoing(a: u32, b: u32) -> Act {
        let inverse = inverse(a);
        Act::Map {
            a: inverse,
            b: inverse.wrapping_mul(b).wrapping_neg(),
        }
    }
}

/// The inverse of an odd number modulo 4,294,967,296, by the extended Euclidean algorithm.
///
/// Each remainder is congruent to its coefficient times `odd`. The last is the greatest
/// common divisor of `odd` and the modulus, 1.
fn inverse(odd: u32) -> u32 {
    let (mut before, mut remainder) = (1_i64 << 32, i64::from(odd));
    let (mut coefficient_before, mut coefficient) = (0, 1);
    while remainder > 1 {
        let quotient = before / remainder;
        (before, remainder) = (remainder, before % remainder);
        let next = coefficient_before - quotient * coefficient;
        (coefficient_before, coefficient) = (coefficient, next);
    }
    coefficient as u32 // the cast takes it modulo 4,294,967,296, below zero too
}

impl Waiting {
    fn new(call: Call, label: u16) -> Waiting {
        match call {
            Call::Add { value } => Waiting::Add { label, value },
            Call::Visit { act, to } => Waiting::visit(act, to, label),
            Call::Unmap { a, b, to } => Waiting::visit(Act::undoing(a, b), to, label),
        }
    }

    fn visit(act: Act, to: To, label: u16) -> Waiting {
        let targets = match to {
            To::Keys(keys) => Targets::Keys(keys),
            To::All => Targets::All { done: false },
        };
        Waiting::Visit(Operation {
            act,
            targets,
            labels: vec![label],
        })
    }

    fn operation(&self) -> Option<&Operation> {
        match self {
            Waiting::Visit(operation) => Some(operation),
            Waiting::Add { .. } => None,
        }
    }
}
