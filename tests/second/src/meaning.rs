//! One-at-a-time processing: what calls mean, without streams, steps or sessions.
//!
//! It shares no code with the steps, so that the two can be compared: the numbers
//! here are wide and are brought back by a remainder, as the rules word it.

use crate::line::{Call, To, LIST};
use crate::session::{Act, Node, Outcome};

const MODULUS: u64 = 4_294_967_296;
/// From here on a number counts as below zero, where tops compare it.
const HALF: u32 = 2_147_483_648;

fn modulo(number: u64) -> u32 {
    (number % MODULUS) as u32
}

/// Processes the calls in order, from no nodes. Gives the nodes, front first, and
/// the result of each call: that of label 1 comes first.
pub fn meaning(calls: &[Call]) -> (Vec<Node>, Vec<Outcome>) {
    let mut nodes = Vec::new();
    let results = calls.iter().map(|call| process(&mut nodes, call)).collect();
    (nodes, results)
}

fn process(nodes: &mut Vec<Node>, call: &Call) -> Outcome {
    match call {
        Call::Add { value } => {
            let key = nodes.len() as u8 + 1;
            let node = Node {
                key,
                value: *value,
                links: Vec::new(),
            };
            nodes.insert(0, node);
            Outcome {
                value: u32::from(key),
                left: Vec::new(),
            }
        }
        Call::Visit { act, to } => {
            let value = visit_all(act, met(nodes, to));
            let left = left(nodes, to);
            Outcome { value, left }
        }
        Call::Unmap { a, b, to } => {
            for node in met(nodes, to) {
                node.value = former(*a, *b, node.value);
            }
            let left = left(nodes, to);
            Outcome { value: 0, left }
        }
    }
}

/// The nodes that are targets, from front to back.
fn met<'a>(nodes: &'a mut [Node], to: &'a To) -> impl Iterator<Item = &'a mut Node> {
    let is_target = move |node: &&mut Node| match to {
        To::Keys(keys) => keys.contains(&node.key),
        To::All => true,
    };
    nodes.iter_mut().filter(is_target)
}

/// The keys named that no node has.
fn left(nodes: &[Node], to: &To) -> Vec<u8> {
    let unmet = |key: &&u8| nodes.iter().all(|node| node.key != **key);
    match to {
        To::Keys(keys) => keys.iter().filter(unmet).copied().collect(),
        To::All => Vec::new(),
    }
}

fn mapped(a: u32, b: u32, value: u32) -> u32 {
    modulo(u64::from(a) * u64::from(value) + u64::from(b))
}

/// The value that the map, whose a is odd, brings to this one: no inverse is needed here.
///
/// It is found from its lowest bit up. A bit that is set turns over the same bit of what
/// it is mapped to, since a is odd, and no bit below.
fn former(a: u32, b: u32, value: u32) -> u32 {
    let bits = (0..32).map(|place| 1 << place);
    bits.fold(0, |found, bit| {
        let differs = (mapped(a, b, found) ^ value) & bit != 0;
        if differs {
            found | bit
        } else {
            found
        }
    })
}

/// Visits the targets from front to back, and gives the result.
fn visit_all<'a>(act: &Act, targets: impl Iterator<Item = &'a mut Node>) -> u32 {
    match *act {
        Act::Map { a, b } => {
            for node in targets {
                node.value = mapped(a, b, node.value);
            }
            0
        }
        Act::Link { key, .. } => {
            let mut full = 0;
            for node in targets {
                if node.links.len() == LIST {
                    full += 1;
                } else {
                    node.links.push(key);
                }
            }
            full
        }
        Act::Unlink { key, .. } => {
            let mut removed = 0;
            for node in targets {
                let (copies, kept): (Vec<u8>, Vec<u8>) =
                    node.links.iter().partition(|&&link| link == key);
                node.links = kept;
                removed += copies.len() as u64;
            }
            modulo(removed)
        }
        Act::Sum { held } => sum(held, targets),
        Act::Near { key, held } => sum(held, targets.filter(|node| node.links.contains(&key))),
        Act::Top { held } => targets.map(|node| node.value).fold(held, greater),
        Act::Pick { held } => targets.map(|node| node.value).last().unwrap_or(held),
    }
}

/// A number as a signed one: 4,294,967,295 is -1, and 2,147,483,648 the least.
fn signed(number: u32) -> i64 {
    let wide = i64::from(number);
    if number < HALF {
        wide
    } else {
        wide - MODULUS as i64
    }
}

/// The greater of two signed numbers, as it was written.
fn greater(first: u32, second: u32) -> u32 {
    if signed(first) < signed(second) {
        second
    } else {
        first
    }
}

fn sum<'a>(start: u32, nodes: impl Iterator<Item = &'a mut Node>) -> u32 {
    let values: u64 = nodes.map(|node| u64::from(node.value)).sum();
    modulo(u64::from(start) + values)
}
