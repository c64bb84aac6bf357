//! The image of a session, and which bytes are one.
//!
//! An image is valid where it is the image of a valid session, and that is also how
//! it is tested: take the bytes apart leniently, test the facts of refusal 2 on the
//! session found, and see whether its image is the same bytes. So nothing here says
//! twice which bytes are zero or in which order records stand.

use crate::line::{strictly_rising, KEYS, LIST};
use crate::session::{Act, Node, Operation, Outcome, Session, Station, Targets, Waiting, LIVE};
use crate::steps::LABELS;

/// Every image has this length.
pub const IMAGE_BYTES: usize = 4112;

const VERSION: u8 = 3;
const NODES_AT: usize = 16;
const NODE_BYTES: usize = 16;
const OPERATIONS_AT: usize = 1040;
const OPERATION_BYTES: usize = 32;
const RESULTS_AT: usize = 3088;
const RESULT_BYTES: usize = 16;
/// Stands for the top stream where a station's key would stand.
const TOP_STREAM: u8 = 65;

const ADD: u8 = 0;
const MAP: u8 = 1;
const LINK: u8 = 2;
const UNLINK: u8 = 3;
const SUM: u8 = 4;
const TOP: u8 = 5;
const PICK: u8 = 6;
const NEAR: u8 = 7;

/// The image of a valid session. Panics where a session has more than fits.
pub fn image(session: &Session) -> [u8; IMAGE_BYTES] {
    let mut bytes = [0; IMAGE_BYTES];
    let operations = operation_records(session);
    bytes[0] = VERSION;
    bytes[1] = session.stations.len() as u8;
    bytes[2] = operations.len() as u8;
    bytes[3] = session.results.len() as u8;
    bytes[4..6].copy_from_slice(&session.last.to_le_bytes());
    let nodes = session.stations.iter().rev().map(|s| node_bytes(&s.node));
    lay(&mut bytes[NODES_AT..OPERATIONS_AT], nodes);
    let operations = operations.iter().map(Record::bytes);
    lay(&mut bytes[OPERATIONS_AT..RESULTS_AT], operations);
    let results = session.results.iter();
    let results = results.map(|(&label, outcome)| result_bytes(label, outcome));
    lay(&mut bytes[RESULTS_AT..], results);
    bytes
}

/// The session whose image these bytes are, if they are one.
pub fn session_of(bytes: &[u8]) -> Option<Session> {
    let bytes: &[u8; IMAGE_BYTES] = bytes.try_into().ok()?;
    let session = take_apart(bytes)?;
    (valid(&session) && image(&session) == *bytes).then_some(session)
}

/// The facts of refusal 2, and no history.
pub fn valid(session: &Session) -> bool {
    valid_nodes(session)
        && session.adds() <= usize::from(KEYS)
        && session.operations().all(valid_operation)
        && session.top.iter().all(has_no_mark)
        && units_hold_operations(session)
        && session
            .results
            .values()
            .all(|result| target_list(&result.left))
        && valid_labels(session)
}

fn valid_nodes(session: &Session) -> bool {
    let nodes = || session.stations.iter().map(|station| &station.node);
    let keys_fall = nodes()
        .rev()
        .map(|node| usize::from(node.key))
        .eq(1..=session.stations.len());
    keys_fall && nodes().all(|node| node.links.len() <= LIST && all_keys(&node.links))
}

fn valid_operation(operation: &Operation) -> bool {
    let most = match operation.act {
        Act::Map { .. } => LABELS,
        _ => 1,
    };
    let operand = match operation.act {
        Act::Link { key, .. } | Act::Unlink { key, .. } | Act::Near { key, .. } => is_key(key),
        _ => true,
    };
    let targets = match &operation.targets {
        Targets::Keys(keys) => target_list(keys),
        Targets::All { .. } => true,
    };
    (1..=most).contains(&operation.labels.len()) && operand && targets
}

/// A mark is about a station, and a waiting call has none.
fn has_no_mark(waiting: &Waiting) -> bool {
    match waiting {
        Waiting::Visit(operation) => operation.targets != Targets::All { done: true },
        Waiting::Add { .. } => true,
    }
}

fn units_hold_operations(session: &Session) -> bool {
    let mut units = session.stations.iter().flat_map(|s| s.streamlet.iter());
    units.all(|unit| !unit.is_empty())
}

/// Live labels are few enough, were given, and stand in one place each.
fn valid_labels(session: &Session) -> bool {
    let results = session.results.keys().copied();
    let mut labels: Vec<u16> = session.pending_labels().chain(results).collect();
    labels.sort_unstable();
    labels.len() <= LIVE
        && labels.windows(2).all(|pair| pair[0] != pair[1])
        && labels
            .iter()
            .all(|label| (1..=session.last).contains(label))
}

fn is_key(key: u8) -> bool {
    (1..=KEYS).contains(&key)
}

fn all_keys(keys: &[u8]) -> bool {
    keys.iter().all(|&key| is_key(key))
}

/// What a call's targets and a result's `left` are: strictly rising keys, at most 8.
fn target_list(keys: &[u8]) -> bool {
    keys.len() <= LIST && all_keys(keys) && strictly_rising(keys)
}

/// Lays records of one length side by side.
fn lay<const N: usize>(place: &mut [u8], records: impl Iterator<Item = [u8; N]>) {
    for (index, record) in records.enumerate() {
        place[index * N..][..N].copy_from_slice(&record);
    }
}

/// Puts a count before a list of keys, and zeros after it.
fn lay_keys(place: &mut [u8], keys: &[u8]) {
    place[0] = keys.len() as u8;
    place[1..][..keys.len()].copy_from_slice(keys);
}

fn node_bytes(node: &Node) -> [u8; NODE_BYTES] {
    let mut bytes = [0; NODE_BYTES];
    bytes[0..4].copy_from_slice(&node.value.to_le_bytes());
    bytes[4] = node.key;
    lay_keys(&mut bytes[5..14], &node.links);
    bytes
}

fn result_bytes(label: u16, outcome: &Outcome) -> [u8; RESULT_BYTES] {
    let mut bytes = [0; RESULT_BYTES];
    bytes[0..2].copy_from_slice(&label.to_le_bytes());
    bytes[2..6].copy_from_slice(&outcome.value.to_le_bytes());
    lay_keys(&mut bytes[6..15], &outcome.left);
    bytes
}

/// An operation's record, with every field that the layout has.
#[derive(Default)]
struct Record {
    station: u8,
    opens: bool,
    kind: u8,
    operand: u8,
    a: u32,
    b: u32,
    targets: Vec<u8>,
    labels: Vec<u16>,
    all: bool,
    done: bool,
}

/// Oldest first: from the last station to the front, each streamlet from its head,
/// then the top stream from its head.
fn operation_records(session: &Session) -> Vec<Record> {
    let mut records = Vec::new();
    for station in session.stations.iter().rev() {
        for unit in &station.streamlet {
            let key = station.node.key;
            let place = |(index, op)| Record::of_operation(key, index == 0, op);
            records.extend(unit.iter().enumerate().map(place));
        }
    }
    records.extend(session.top.iter().map(Record::of_waiting));
    records
}

impl Record {
    fn of_waiting(waiting: &Waiting) -> Record {
        match waiting {
            Waiting::Visit(operation) => Record::of_operation(TOP_STREAM, true, operation),
            Waiting::Add { label, value } => Record {
                station: TOP_STREAM,
                opens: true,
                kind: ADD,
                b: *value,
                labels: vec![*label],
                ..Record::default()
            },
        }
    }

    fn of_operation(station: u8, opens: bool, operation: &Operation) -> Record {
        let (kind, operand, a, b) = match operation.act {
            Act::Map { a, b } => (MAP, 0, a, b),
            Act::Link { key, full } => (LINK, key, 0, full),
            Act::Unlink { key, removed } => (UNLINK, key, 0, removed),
            Act::Sum { held } => (SUM, 0, 0, held),
            Act::Top { held } => (TOP, 0, 0, held),
            Act::Pick { held } => (PICK, 0, 0, held),
            Act::Near { key, held } => (NEAR, key, 0, held),
        };
        let (targets, all, done) = match &operation.targets {
            Targets::Keys(keys) => (keys.clone(), false, false),
            Targets::All { done } => (Vec::new(), true, *done),
        };
        Record {
            station,
            opens,
            kind,
            operand,
            a,
            b,
            targets,
            labels: operation.labels.clone(),
            all,
            done,
        }
    }

    fn bytes(&self) -> [u8; OPERATION_BYTES] {
        let mut bytes = [0; OPERATION_BYTES];
        bytes[0] = self.station;
        bytes[1] = u8::from(self.opens);
        bytes[2] = self.kind;
        bytes[3] = self.operand;
        bytes[4..8].copy_from_slice(&self.a.to_le_bytes());
        bytes[8..12].copy_from_slice(&self.b.to_le_bytes());
        lay_keys(&mut bytes[12..21], &self.targets);
        bytes[21] = self.labels.len() as u8;
        lay(
            &mut bytes[22..30],
            self.labels.iter().map(|l| l.to_le_bytes()),
        );
        bytes[30] = u8::from(self.all);
        bytes[31] = u8::from(self.done);
        bytes
    }

    fn of_bytes(bytes: &[u8]) -> Option<Record> {
        Some(Record {
            station: bytes[0],
            opens: bytes[1] != 0,
            kind: bytes[2],
            operand: bytes[3],
            a: number(&bytes[4..8])?,
            b: number(&bytes[8..12])?,
            targets: keys(&bytes[12..21])?,
            labels: labels(&bytes[21..30])?,
            all: bytes[30] != 0,
            done: bytes[31] != 0,
        })
    }

    /// The act, unless the record is an add's or its kind is unknown. Fields that the
    /// kind doesn't use are dropped.
    fn act(&self) -> Option<Act> {
        let (key, held) = (self.operand, self.b);
        Some(match self.kind {
            MAP => Act::Map {
                a: self.a,
                b: self.b,
            },
            LINK => Act::Link { key, full: held },
            UNLINK => Act::Unlink { key, removed: held },
            SUM => Act::Sum { held },
            TOP => Act::Top { held },
            PICK => Act::Pick { held },
            NEAR => Act::Near { key, held },
            _ => return None,
        })
    }

    /// The targets. What is listed beside an all-call, and a mark beside a list, are
    /// dropped.
    fn targets(&self) -> Targets {
        if self.all {
            Targets::All { done: self.done }
        } else {
            Targets::Keys(self.targets.clone())
        }
    }
}

fn number(bytes: &[u8]) -> Option<u32> {
    bytes.try_into().map(u32::from_le_bytes).ok()
}

fn label(bytes: &[u8]) -> Option<u16> {
    bytes.try_into().map(u16::from_le_bytes).ok()
}

/// A list of keys after its count, if the count has room.
fn keys(bytes: &[u8]) -> Option<Vec<u8>> {
    let count = usize::from(bytes[0]);
    bytes[1..].get(..count).map(<[u8]>::to_vec)
}

/// A list of labels after its count, if the count has room.
fn labels(bytes: &[u8]) -> Option<Vec<u16>> {
    let count = usize::from(bytes[0]);
    let bytes = bytes[1..].get(..2 * count)?;
    bytes.chunks(2).map(label).collect()
}

/// The first `count` records of a table, if it has so many.
fn table(bytes: &[u8], count: u8, length: usize) -> Option<impl Iterator<Item = &[u8]>> {
    let records = bytes.get(..usize::from(count) * length)?;
    Some(records.chunks(length))
}

/// A session that has these bytes for its image if any has. It need not be valid.
fn take_apart(bytes: &[u8; IMAGE_BYTES]) -> Option<Session> {
    let mut session = Session::open();
    session.last = label(&bytes[4..6])?;
    for record in table(&bytes[NODES_AT..OPERATIONS_AT], bytes[1], NODE_BYTES)? {
        let mut station = Station::new(record[4], number(&record[0..4])?);
        station.node.links = keys(&record[5..14])?;
        session.stations.insert(0, station);
    }
    for record in table(&bytes[OPERATIONS_AT..RESULTS_AT], bytes[2], OPERATION_BYTES)? {
        put(&mut session, Record::of_bytes(record)?)?;
    }
    for record in table(&bytes[RESULTS_AT..], bytes[3], RESULT_BYTES)? {
        let value = number(&record[2..6])?;
        let left = keys(&record[6..15])?;
        let outcome = Outcome { value, left };
        session.results.insert(label(&record[0..2])?, outcome);
    }
    Some(session)
}

/// Puts an operation where its record says.
fn put(session: &mut Session, record: Record) -> Option<()> {
    if record.kind == ADD {
        let label = *record.labels.first()?;
        let value = record.b;
        // Elsewhere than in the top stream its image differs, and so it is refused.
        session.top.push_back(Waiting::Add { label, value });
        return Some(());
    }
    let operation = Operation {
        act: record.act()?,
        targets: record.targets(),
        labels: record.labels,
    };
    if record.station == TOP_STREAM {
        session.top.push_back(Waiting::Visit(operation));
        return Some(());
    }
    let mut stations = session.stations.iter_mut();
    let station = stations.find(|s| s.node.key == record.station)?;
    if record.opens {
        station.streamlet.push_back(vec![operation]);
    } else {
        station.streamlet.back_mut()?.push(operation);
    }
    Some(())
}
