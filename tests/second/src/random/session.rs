//! Random sessions that no run need lead to, and damaged images.
//!
//! Refusal 2 tests no history, so a session may have targets that were passed, labels
//! in any order, any held value and any count. What an entry does is owed for these too.

use super::{neighbour, value, Random};
use crate::image::IMAGE_BYTES;
use crate::line::{KEYS, LIST};
use crate::samples;
use crate::session::{
    Act, Node, Operation, Outcome, Session, Station, Targets, Unit, Waiting, LIVE,
};

/// Any valid session: full ones and small ones, all kinds, all places.
pub fn any(random: &mut Random) -> Session {
    let mut session = Session::open();
    let nodes = small_or_up_to(random, u64::from(KEYS));
    for key in 1..=nodes as u8 {
        let mut station = Station::new(key, value(random));
        station.node.links = links(random);
        session.stations.insert(0, station);
    }
    let mut labels = labels(random, &mut session);
    while let Some(label) = labels.pop() {
        match random.below(8) {
            0 | 1 => put_result(random, &mut session, label),
            2 | 3 => put_waiting(random, &mut session, label, &mut labels),
            _ => put_operation(random, &mut session, label, &mut labels),
        }
    }
    session
}

/// Changes some bytes of an image, mostly where a session has records.
pub fn damage_image(random: &mut Random, image: &mut [u8; IMAGE_BYTES]) {
    let (nodes, operations, results) = (image[1], image[2], image[3]);
    let parts = [
        (0, 8),
        (16, 16 * u64::from(nodes)),
        (1040, 32 * u64::from(operations)),
        (3088, 16 * u64::from(results)),
    ];
    for _ in 0..=random.below(2) {
        let (start, length) = random.choose(&parts);
        let place = start + random.below(length + 1) as usize;
        let place = if random.once_in(30) {
            random.below(IMAGE_BYTES as u64) as usize
        } else if operations > 0 && random.once_in(8) {
            all_or_mark(random, operations)
        } else {
            place.min(IMAGE_BYTES - 1)
        };
        let near = image[place].wrapping_add(random.choose(&[1, 255]));
        let byte = random.choose(&[0, 1, 2, 3, 4, 5, 8, 9, 64, 65, 66, 255, near, near]);
        image[place] = byte;
    }
}

/// The place of the byte of some operation that says whether it is for all, or of the next,
/// which has its mark.
fn all_or_mark(random: &mut Random, operations: u8) -> usize {
    let operation = random.below(u64::from(operations)) as usize;
    samples::operation(operation, random.choose(&[30, 31]))
}

fn small_or_up_to(random: &mut Random, most: u64) -> u64 {
    match random.below(6) {
        0 => most,
        1 | 2 => random.below(most + 1),
        _ => random.below(5),
    }
}

/// At most 64 labels, each once, in no order; and the last given.
fn labels(random: &mut Random, session: &mut Session) -> Vec<u16> {
    let last = match random.below(4) {
        0 => 65_535,
        1 => 65_534,
        _ => random.below(200),
    };
    session.last = last as u16;
    let count = small_or_up_to(random, last.min(LIVE as u64));
    let mut labels: Vec<u16> = Vec::new();
    while (labels.len() as u64) < count.min(last) {
        let label = 1 + random.below(last) as u16;
        if !labels.contains(&label) {
            labels.push(label);
        }
    }
    labels
}

/// A list of few keys or of any, so that an unlink removes none, some or all of it.
fn links(random: &mut Random) -> Vec<u8> {
    let count = random.choose(&[0, 0, 1, 7, 8, 8]);
    let most = random.choose(&[1, 2, 4, u64::from(KEYS)]);
    (0..count).map(|_| 1 + random.below(most) as u8).collect()
}

/// The operand key of a link, an unlink or a near: mostly one that lists hold.
fn link_key(random: &mut Random) -> u8 {
    if random.once_in(3) {
        1 + random.below(2) as u8
    } else {
        key(random)
    }
}

/// The count of a link or an unlink: often as near the limit as one list can bring it.
fn count(random: &mut Random) -> u32 {
    if random.once_in(2) {
        u32::MAX - random.below(LIST as u64 + 1) as u32
    } else {
        value(random)
    }
}

fn key(random: &mut Random) -> u8 {
    let most = random.choose(&[4, u64::from(KEYS)]);
    1 + random.below(most) as u8
}

fn target_list(random: &mut Random) -> Vec<u8> {
    let count = random.choose(&[0, 1, 2, 2, 3, LIST]);
    let mut keys: Vec<u8> = (0..count).map(|_| key(random)).collect();
    keys.sort_unstable();
    keys.dedup();
    keys
}

fn put_result(random: &mut Random, session: &mut Session, label: u16) {
    let value = value(random);
    let left = target_list(random);
    session.results.insert(label, Outcome { value, left });
}

fn put_waiting(random: &mut Random, session: &mut Session, label: u16, more: &mut Vec<u16>) {
    let room = session.adds() < usize::from(KEYS);
    let waiting = if room && random.once_in(2) {
        let value = value(random);
        Waiting::Add { label, value }
    } else {
        Waiting::Visit(operation(random, label, more))
    };
    session.top.push_back(waiting);
}

/// Puts an operation into some unit, or into a new one; busy stations attract more.
fn put_operation(random: &mut Random, session: &mut Session, label: u16, more: &mut Vec<u16>) {
    if session.stations.is_empty() {
        return put_waiting(random, session, label, more);
    }
    let mut operation = operation(random, label, more);
    if let Targets::All { done } = &mut operation.targets {
        *done = random.once_in(2);
    }
    let stations = session.stations.len() as u64;
    let near = random.choose(&[1, stations.min(2), stations]);
    let place = match random.below(2) {
        0 => random.below(near),
        _ => stations - 1 - random.below(near),
    };
    let Station { node, streamlet } = &mut session.stations[place as usize];
    if random.once_in(3) {
        aim(random, &mut operation, node);
    }
    match streamlet.back_mut() {
        Some(unit) if random.once_in(4) => unit.push(operation),
        _ => streamlet.push_back(Unit::from([operation])),
    }
}

/// Lets an operation find work at this node: it is a target, its list has the key, and its
/// value is near what a top holds, by some order.
fn aim(random: &mut Random, operation: &mut Operation, node: &Node) {
    match &mut operation.targets {
        Targets::Keys(keys) if keys.len() < LIST && !keys.contains(&node.key) => {
            keys.push(node.key);
            keys.sort_unstable();
        }
        Targets::Keys(_) => {}
        Targets::All { done } => *done = false,
    }
    if let Act::Unlink { key, .. } | Act::Near { key, .. } = &mut operation.act {
        if !node.links.is_empty() {
            *key = random.choose(&node.links);
        }
    }
    if let Act::Top { held } = &mut operation.act {
        *held = neighbour(random, node.value);
    }
}

/// An operation of this label, with no mark; a map may take more labels.
fn operation(random: &mut Random, label: u16, more: &mut Vec<u16>) -> Operation {
    let held = value(random);
    let act = match random.below(12) {
        0..=3 => Act::Map {
            a: value(random),
            b: held,
        },
        4 => Act::Link {
            key: link_key(random),
            full: count(random),
        },
        5 | 6 => Act::Unlink {
            key: link_key(random),
            removed: count(random),
        },
        7 => Act::Sum { held },
        8 | 9 => Act::Top { held },
        10 => Act::Pick { held },
        _ => Act::Near {
            key: link_key(random),
            held,
        },
    };
    let mut labels = vec![label];
    if matches!(act, Act::Map { .. }) {
        let others = random.choose(&[0, 0, 1, 2, 3]).min(more.len());
        labels.extend(more.drain(more.len() - others..));
    }
    let targets = if random.once_in(4) {
        Targets::All { done: false }
    } else {
        Targets::Keys(target_list(random))
    };
    Operation {
        act,
        targets,
        labels,
    }
}
