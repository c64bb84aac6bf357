//! The work steps.
//!
//! Each tests before it changes anything: no node (20), no unit (21), not allowed
//! (22), in this order. A step that is refused has changed nothing.

use crate::line::{Step, LIST};
use crate::refusal::Refusal;
use crate::session::{Act, Node, Operation, Outcome, Session, Station, Targets, Unit, Waiting};
use crate::Tally;

/// A fused map has at most this many labels.
pub const LABELS: usize = 4;

/// The step kinds, numbered by their place in the tally.
#[derive(Clone, Copy)]
enum Kind {
    Admit,
    Realise,
    Move,
    Finish,
    Join,
    Split,
    Swap,
    Fuse,
}

/// The task rules of the published CG Calculus (arXiv 1911.10982) for one operation at
/// a station, in the order in which its section 6 names them, so that both can be read
/// side by side: the rules over one station, then the one over two.
enum Rule {
    /// A map, link or unlink targets the node.
    Map,
    /// A fold targets the node.
    Fold,
    /// No targets are left.
    Complete,
    /// The station is the last, and its node no target.
    Last,
    /// A station follows, and this one's node is no target.
    Propagate,
}

/// Counts one step. A full count rests.
fn count(tally: &mut Tally, kind: Kind) {
    let count = &mut tally[kind as usize];
    *count = count.saturating_add(1);
}

impl Session {
    /// Takes the step of a line, and counts what was taken.
    pub(crate) fn take(&mut self, step: Step, tally: &mut Tally) -> Result<(), Refusal> {
        let kind = match step {
            Step::Drain => {
                self.drain(tally);
                return Ok(());
            }
            Step::Admit => self.admit().map(|()| Kind::Admit),
            Step::Realise { at } => self.realise(self.place(at)?).map(|()| Kind::Realise),
            Step::Move { at } => self.move_on(self.place(at)?).map(|()| Kind::Move),
            Step::Finish { at } => self.finish(self.place(at)?).map(|()| Kind::Finish),
            Step::Join { at, unit } => self.station(at)?.join(unit).map(|()| Kind::Join),
            Step::Split { at, unit, after } => {
                let station = self.station(at)?;
                station.split(unit, after).map(|()| Kind::Split)
            }
            Step::Swap { at, unit } => self.station(at)?.swap(unit).map(|()| Kind::Swap),
            Step::Fuse { at, unit } => self.station(at)?.fuse(unit).map(|()| Kind::Fuse),
        }?;
        count(tally, kind);
        Ok(())
    }

    /// Where the node with this key stands, from the front.
    fn place(&self, at: u8) -> Result<usize, Refusal> {
        let place = self.stations.iter().position(|s| s.node.key == at);
        place.ok_or(Refusal::NoNode)
    }

    fn station(&mut self, at: u8) -> Result<&mut Station, Refusal> {
        let place = self.place(at)?;
        Ok(&mut self.stations[place])
    }

    fn admit(&mut self) -> Result<(), Refusal> {
        match self.top.pop_front().ok_or(Refusal::NoUnit)? {
            Waiting::Add { label, value } => self.add(label, value),
            Waiting::Visit(operation) => match self.stations.first_mut() {
                Some(front) => front.streamlet.push_back(vec![operation]),
                None => self.store(operation),
            },
        }
        Ok(())
    }

    fn add(&mut self, label: u16, value: u32) {
        // At most 64 nodes: acceptance counts the waiting adds too.
        let key = self.stations.len() as u8 + 1;
        self.stations.insert(0, Station::new(key, value));
        let outcome = Outcome {
            value: u32::from(key),
            left: Vec::new(),
        };
        self.results.insert(label, outcome);
    }

    /// Stores the operation's result for each of its labels.
    fn store(&mut self, operation: Operation) {
        let value = operation.act.result();
        let left = operation.targets.left();
        for label in operation.labels {
            let left = left.clone();
            self.results.insert(label, Outcome { value, left });
        }
    }

    fn is_last(&self, place: usize) -> bool {
        place + 1 == self.stations.len()
    }

    fn realise(&mut self, place: usize) -> Result<(), Refusal> {
        let last = self.is_last(place);
        let Station { node, streamlet } = &mut self.stations[place];
        let head = streamlet.front_mut().ok_or(Refusal::NoUnit)?;
        let acts = |op: &&mut Operation| matches!(op.rule(node, last), Rule::Map | Rule::Fold);
        let first = head.iter_mut().find(acts).ok_or(Refusal::NotAllowed)?;
        first.visit(node);
        Ok(())
    }

    /// Asks for no operation's rule: one without targets may move on with its unit,
    /// although COMPLETE comes first for it.
    fn move_on(&mut self, place: usize) -> Result<(), Refusal> {
        let last = self.is_last(place);
        let Station { node, streamlet } = &mut self.stations[place];
        let head = streamlet.front().ok_or(Refusal::NoUnit)?;
        if last || head.iter().any(|operation| operation.targets.has(node)) {
            return Err(Refusal::NotAllowed);
        }
        let mut unit = streamlet.pop_front().ok_or(Refusal::NoUnit)?;
        for operation in &mut unit {
            operation.targets.unmark();
        }
        self.stations[place + 1].streamlet.push_back(unit);
        Ok(())
    }

    fn finish(&mut self, place: usize) -> Result<(), Refusal> {
        let last = self.is_last(place);
        let Station { node, streamlet } = &mut self.stations[place];
        let head = streamlet.front_mut().ok_or(Refusal::NoUnit)?;
        let done = |op: &Operation| matches!(op.rule(node, last), Rule::Complete | Rule::Last);
        let first = head.iter().position(done).ok_or(Refusal::NotAllowed)?;
        let operation = head.remove(first);
        if head.is_empty() {
            streamlet.pop_front();
        }
        self.store(operation);
        Ok(())
    }

    fn drain(&mut self, tally: &mut Tally) {
        while self.pending_labels().next().is_some() {
            let kind = self.drain_once();
            count(tally, kind);
        }
    }

    /// One step of a drain, while a call is pending.
    fn drain_once(&mut self) -> Kind {
        let busy = self.stations.iter().rposition(|s| !s.streamlet.is_empty());
        let (taken, kind) = match busy {
            None => (self.admit(), Kind::Admit),
            Some(place) => {
                if self.realise(place).is_ok() {
                    (Ok(()), Kind::Realise)
                } else if self.finish(place).is_ok() {
                    (Ok(()), Kind::Finish)
                } else {
                    (self.move_on(place), Kind::Move)
                }
            }
        };
        taken.expect("while a call is pending, a step is allowed");
        kind
    }
}

impl Station {
    /// The place of a unit in the streamlet, from the head.
    fn unit(&self, number: u32) -> Result<usize, Refusal> {
        let place = (number as usize).checked_sub(1).ok_or(Refusal::NoUnit)?;
        if place < self.streamlet.len() {
            Ok(place)
        } else {
            Err(Refusal::NoUnit)
        }
    }

    /// The place of a unit that has another after it.
    fn pair(&self, number: u32) -> Result<usize, Refusal> {
        let place = self.unit(number)?;
        self.unit(number.saturating_add(1))?;
        Ok(place)
    }

    /// The place of the first of two neighbours of one operation each, and these two.
    fn singles(&self, number: u32) -> Result<(usize, &Operation, &Operation), Refusal> {
        let place = self.pair(number)?;
        match (
            self.streamlet[place].as_slice(),
            self.streamlet[place + 1].as_slice(),
        ) {
            ([first], [second]) => Ok((place, first, second)),
            _ => Err(Refusal::NotAllowed),
        }
    }

    /// Takes the unit at this place out of the streamlet.
    fn remove(&mut self, place: usize) -> Unit {
        let unit = self.streamlet.remove(place);
        unit.expect("the place of a unit was found before")
    }

    fn join(&mut self, number: u32) -> Result<(), Refusal> {
        let place = self.pair(number)?;
        let second = self.remove(place + 1);
        self.streamlet[place].extend(second);
        Ok(())
    }

    fn split(&mut self, number: u32, after: u32) -> Result<(), Refusal> {
        let place = self.unit(number)?;
        let unit = &mut self.streamlet[place];
        let after = after as usize;
        if !(1..unit.len()).contains(&after) {
            return Err(Refusal::NotAllowed);
        }
        let second = unit.split_off(after);
        self.streamlet.insert(place + 1, second);
        Ok(())
    }

    fn swap(&mut self, number: u32) -> Result<(), Refusal> {
        let (place, first, second) = self.singles(number)?;
        if !first.may_swap(second) {
            return Err(Refusal::NotAllowed);
        }
        self.streamlet.swap(place, place + 1);
        Ok(())
    }

    fn fuse(&mut self, number: u32) -> Result<(), Refusal> {
        let (place, first, second) = self.singles(number)?;
        let fused = first.fused(second).ok_or(Refusal::NotAllowed)?;
        self.remove(place + 1);
        self.streamlet[place] = vec![fused];
        Ok(())
    }
}

impl Operation {
    /// The first rule that holds for it at the node's station.
    ///
    /// Once no targets are left, LAST or PROP holds beside COMPLETE. The paper's figure
    /// prints PROP before COMPLETE; asked there, it would keep such an operation from
    /// finishing before the last station.
    fn rule(&self, node: &Node, last: bool) -> Rule {
        let (targeted, fold) = (self.targets.has(node), self.act.is_fold());
        if targeted && !fold {
            Rule::Map
        } else if targeted && fold {
            Rule::Fold
        } else if self.targets.are_none() {
            Rule::Complete
        } else if last {
            Rule::Last
        } else {
            Rule::Propagate
        }
    }

    /// Acts at the node, which is no target any more.
    fn visit(&mut self, node: &mut Node) {
        self.act.visit(node);
        self.targets.strike(node.key);
    }

    fn may_swap(&self, other: &Operation) -> bool {
        let both_folds = self.act.is_fold() && other.act.is_fold();
        both_folds || !self.targets.share_one(&other.targets)
    }

    /// This map followed by the other, where the two may become one.
    fn fused(&self, other: &Operation) -> Option<Operation> {
        let (Act::Map { a, b }, Act::Map { a: a2, b: b2 }) = (&self.act, &other.act) else {
            return None;
        };
        let labels = [self.labels.as_slice(), other.labels.as_slice()].concat();
        if self.targets != other.targets || labels.len() > LABELS {
            return None;
        }
        let act = Act::Map {
            a: a2.wrapping_mul(*a),
            b: a2.wrapping_mul(*b).wrapping_add(*b2),
        };
        let targets = self.targets.clone();
        Some(Operation {
            act,
            targets,
            labels,
        })
    }
}

impl Targets {
    /// Whether the node is one of them, where the operation stands at its station.
    pub fn has(&self, node: &Node) -> bool {
        match self {
            Targets::Keys(keys) => keys.contains(&node.key),
            Targets::All { done } => !done,
        }
    }

    /// Whether there are none wherever the operation goes. An all-call that is marked may
    /// have stations ahead.
    pub fn are_none(&self) -> bool {
        match self {
            Targets::Keys(keys) => keys.is_empty(),
            Targets::All { .. } => false,
        }
    }

    fn strike(&mut self, key: u8) {
        match self {
            Targets::Keys(keys) => keys.retain(|&other| other != key),
            Targets::All { done } => *done = true,
        }
    }

    /// Clears the mark, which is about the station that it leaves.
    fn unmark(&mut self) {
        if let Targets::All { done } = self {
            *done = false;
        }
    }

    /// Marks do not matter here: an all-call is for the stations ahead too.
    fn share_one(&self, other: &Targets) -> bool {
        match (self, other) {
            (Targets::Keys(keys), Targets::Keys(others)) => {
                keys.iter().any(|key| others.contains(key))
            }
            (Targets::All { .. }, Targets::All { .. }) => true,
            (Targets::All { .. }, Targets::Keys(keys))
            | (Targets::Keys(keys), Targets::All { .. }) => !keys.is_empty(),
        }
    }

    /// The keys that were not met. An all-call names none.
    fn left(self) -> Vec<u8> {
        match self {
            Targets::Keys(keys) => keys,
            Targets::All { .. } => Vec::new(),
        }
    }
}

impl Act {
    fn is_fold(&self) -> bool {
        match self {
            Act::Map { .. } | Act::Link { .. } | Act::Unlink { .. } => false,
            Act::Sum { .. } | Act::Top { .. } | Act::Pick { .. } | Act::Near { .. } => true,
        }
    }

    /// What it does at a target.
    fn visit(&mut self, node: &mut Node) {
        match self {
            Act::Map { a, b } => node.value = a.wrapping_mul(node.value).wrapping_add(*b),
            Act::Link { key, full } => {
                if node.links.len() < LIST {
                    node.links.push(*key);
                } else {
                    *full = full.wrapping_add(1);
                }
            }
            Act::Unlink { key, removed } => {
                let before = node.links.len();
                node.links.retain(|link| link != key);
                let copies = before - node.links.len();
                // No run needs the wrapping, but an image may hold any count.
                *removed = removed.wrapping_add(copies as u32);
            }
            Act::Sum { held } => *held = held.wrapping_add(node.value),
            // Both as signed numbers, in two's complement; the bits stay.
            Act::Top { held } => *held = (node.value as i32).max(*held as i32) as u32,
            Act::Pick { held } => *held = node.value,
            Act::Near { key, held } => {
                if node.links.contains(key) {
                    *held = held.wrapping_add(node.value);
                }
            }
        }
    }

    /// The result's value, should the operation finish now.
    fn result(&self) -> u32 {
        match self {
            Act::Map { .. } => 0,
            Act::Link { full, .. } => *full,
            Act::Unlink { removed, .. } => *removed,
            Act::Sum { held } | Act::Top { held } | Act::Pick { held } => *held,
            Act::Near { held, .. } => *held,
        }
    }
}
