//! Seeded random numbers and lines, for tests that compare.

use crate::session::{Act, Operation, Session, Station, Targets, Unit, Waiting};

pub mod page;
pub mod session;

pub use page::page;

/// The least signed number. The greatest stands before it.
const LEAST: u32 = 2_147_483_648;
/// Where the signed order begins, passes zero and ends.
const HEIGHTS: [u32; 4] = [LEAST, u32::MAX, 0, LEAST - 1];
/// What is no list of targets, but nearly `all`.
const NOT_ALL: [&str; 8] = ["all,1", "1,all", "ALL", "al", "alle", "all,", "all ", "a"];

/// SplitMix64: small, seeded, and the same on every machine.
#[derive(Clone, Debug)]
pub struct Random {
    state: u64,
}

impl Random {
    pub fn new(seed: u64) -> Random {
        Random { state: seed }
    }

    pub fn bits(&mut self) -> u64 {
        self.state = self.state.wrapping_add(0x9E37_79B9_7F4A_7C15);
        let mut bits = self.state;
        bits = (bits ^ (bits >> 30)).wrapping_mul(0xBF58_476D_1CE4_E5B9);
        bits = (bits ^ (bits >> 27)).wrapping_mul(0x94D0_49BB_1331_11EB);
        bits ^ (bits >> 31)
    }

    /// A number below `bound`, which isn't 0.
    pub fn below(&mut self, bound: u64) -> u64 {
        self.bits() % bound
    }

    /// True once in `times`.
    pub fn once_in(&mut self, times: u64) -> bool {
        self.below(times) == 0
    }

    pub fn choose<T: Copy>(&mut self, members: &[T]) -> T {
        members[self.below(members.len() as u64) as usize]
    }
}

/// Writes random lines, with habits of its own: some scribes add many nodes, some
/// claim seldom, so that different scripts meet different limits.
#[derive(Clone, Debug)]
pub struct Scribe {
    pub random: Random,
    /// One call in so many is an add.
    adds: u64,
    /// From so many nodes on, adds are rare; calls get through few nodes without a drain.
    nodes: usize,
    /// Out of about 40 lines so many are claims, more where results have piled up.
    claims: u64,
    /// One visiting call in so many is a link to the same two nodes, until lists are full.
    links: u64,
    /// One other visiting call in so many is an unlink there, where lists hold something.
    unlinks: u64,
    /// One other visiting call in so many sets a height or asks for a top.
    heights: u64,
    /// One other visiting call in so many is a map or its unmap, mostly with the other next.
    unmaps: u64,
    /// One visiting call in so many is for all nodes, mostly with a neighbour to try it with.
    alls: u64,
    /// The call to be sent next: the second of a map and its unmap, or of an all-call and
    /// its neighbour.
    next: Option<String>,
}

impl Scribe {
    pub fn new(seed: u64) -> Scribe {
        let mut random = Random::new(seed);
        Scribe {
            adds: random.choose(&[2, 6, 12, 40]),
            nodes: random.choose(&[3, 6, 65]),
            claims: random.choose(&[1, 3, 9]),
            links: random.choose(&[2, 3, 20, 100]),
            unlinks: random.choose(&[2, 4, 40]),
            heights: random.choose(&[2, 3, 12]),
            unmaps: random.choose(&[2, 3, 12]),
            alls: random.choose(&[3, 5, 10, 40]),
            next: None,
            random,
        }
    }

    /// A line for this session: mostly one that it can serve, sometimes one that
    /// meets a limit, now and then a damaged one.
    pub fn line(&mut self, session: &Session) -> Vec<u8> {
        let many = session.results.len() > 40;
        let claims = if many { 4 * self.claims } else { self.claims };
        let mut line = match self.random.below(40 + claims) {
            0..=12 => self.call_line(session),
            13..=31 => self.useful_step_line(session),
            32..=38 => self.step_line(session),
            39 if self.random.once_in(3) => String::from("step=drain"),
            39 => String::from("step=admit"),
            _ => self.claim_line(session),
        }
        .into_bytes();
        if line.ends_with(b" to=all") && self.random.once_in(15) {
            line.truncate(line.len() - b"all".len());
            line.extend_from_slice(self.random.choose(&NOT_ALL).as_bytes());
        }
        if self.random.once_in(25) {
            damage(&mut self.random, &mut line);
        }
        line
    }

    /// A call line of a good form.
    pub fn call_line(&mut self, session: &Session) -> String {
        if let Some(next) = self.next.take() {
            return next;
        }
        let random = &mut self.random;
        let adds = match session.stations.len() {
            0..=2 => 3,
            nodes if nodes < self.nodes => self.adds,
            _ => 100,
        };
        if random.once_in(adds) {
            return format!("call=add value={}", value(random));
        }
        if random.once_in(self.alls) {
            let [first, second] = all_and_neighbour(random, session);
            self.next = (!random.once_in(3)).then_some(second);
            return first;
        }
        if random.once_in(self.links) {
            let to = random.choose(&["1,2", "1,2", "1,2", "all"]);
            return format!("call=link key={} to={to}", few_key(random));
        }
        let enough = random.choose(&[1, 3, 8]);
        let mut nodes = session.stations.iter().map(|station| &station.node);
        let linked = nodes.any(|node| node.links.len() >= enough);
        if linked && random.once_in(self.unlinks) {
            let to = random.choose(&["1", "2", "1,2", "1,2", "1,2,64", "all"]);
            return format!("call=unlink key={} to={to}", few_key(random));
        }
        let last = last_operation(session);
        if random.once_in(self.heights) {
            return height_line(random, last);
        }
        if random.once_in(self.unmaps) {
            let [first, second] = map_and_unmap(random, session);
            self.next = (!random.once_in(4)).then_some(second);
            return first;
        }
        if let Some(last) = last.filter(|_| random.once_in(3)) {
            let word = random.choose(&["map", "map", "unmap"]);
            let (a, b, to) = (value(random), value(random), to_text(&last.targets));
            return format!("call={word} a={a} b={b} to={to}");
        }
        let to = target_text(random, session);
        visiting_line(random, session, &to)
    }

    /// A line of one step that may well be allowed.
    pub fn useful_step_line(&mut self, session: &Session) -> String {
        let random = &mut self.random;
        let busy = session.stations.iter().filter(|s| !s.streamlet.is_empty());
        let busy: Vec<&Station> = busy.collect();
        let waiting = !session.top.is_empty();
        if busy.is_empty() || (waiting && random.once_in(2)) {
            return String::from("step=admit");
        }
        let to_go_on = |station: &&&Station| {
            let head = &station.streamlet[0];
            head.iter().any(is_marked) || joins_alls(head)
        };
        let station = match busy.iter().find(to_go_on) {
            Some(station) if random.once_in(2) => station,
            _ => random.choose(&busy),
        };
        let at = station.node.key;
        if let Some(line) = all_step_line(random, station) {
            return line;
        }
        let any = random.below(station.streamlet.len() as u64) as usize;
        match random.below(14) {
            0 => format!("step=join at={at} unit={}", any + 1),
            1 | 2 => {
                let long = |unit: usize| station.streamlet[unit].len() > 1;
                let unit = find(station, long).unwrap_or(any);
                let after = 1 + random.below(2);
                format!("step=split at={at} unit={} after={after}", unit + 1)
            }
            3 => format!("step=swap at={at} unit={}", any + 1),
            4 | 5 => {
                let unit = find(station, |unit| is_fusible(station, unit)).unwrap_or(any);
                format!("step=fuse at={at} unit={}", unit + 1)
            }
            _ => format!("step={} at={at}", head_step(station)),
        }
    }

    /// A line of one step, of a good form; no drain.
    pub fn step_line(&mut self, session: &Session) -> String {
        let random = &mut self.random;
        let at = busy_key(random, session);
        let unit = 1 + random.below(3) - u64::from(random.once_in(40));
        match random.below(12) {
            0..=2 => String::from("step=admit"),
            3 | 4 => format!("step=realise at={at}"),
            5 => format!("step=move at={at}"),
            6 | 7 => format!("step=finish at={at}"),
            8 => format!("step=join at={at} unit={unit}"),
            9 => format!("step=split at={at} unit={unit} after={}", random.below(4)),
            10 => format!("step=swap at={at} unit={unit}"),
            _ => format!("step=fuse at={at} unit={unit}"),
        }
    }

    /// A claim line, mostly of a label that was given.
    pub fn claim_line(&mut self, session: &Session) -> String {
        let random = &mut self.random;
        let results: Vec<u16> = session.results.keys().copied().collect();
        if results.is_empty() || random.once_in(4) {
            format!("claim={}", random.below(u64::from(session.last) + 3))
        } else {
            format!("claim={}", random.choose(&results))
        }
    }
}

/// Any call that visits nodes, with these targets.
fn visiting_line(random: &mut Random, session: &Session, to: &str) -> String {
    match random.below(9) {
        0 | 1 => format!("call=map a={} b={} to={to}", value(random), value(random)),
        2 => format!("call=unmap a={} b={} to={to}", value(random), value(random)),
        3 => format!("call=link key={} to={to}", link_key(random, session)),
        4 => format!("call=unlink key={} to={to}", link_key(random, session)),
        5 => format!("call=sum start={} to={to}", value(random)),
        6 => format!("call=top start={} to={to}", value(random)),
        7 => format!("call=pick start={} to={to}", value(random)),
        _ => {
            let key = link_key(random, session);
            format!("call=near key={key} start={} to={to}", value(random))
        }
    }
}

/// An all-call and another, for all or not, in either order: two maps, two folds, or any. Or
/// all are set to a height, and the top of some is asked for.
fn all_and_neighbour(random: &mut Random, session: &Session) -> [String; 2] {
    let listed = target_text(random, session);
    let other = random.choose(&["all", "all", "", &listed]);
    let to = ["all", other];
    let mut pair = match random.below(7) {
        0..=2 => to.map(|to| {
            let word = random.choose(&["map", "map", "unmap"]);
            let (a, b) = (factor(random), value(random));
            format!("call={word} a={a} b={b} to={to}")
        }),
        3 | 4 => to.map(|to| {
            let word = random.choose(&["sum", "top", "pick"]);
            format!("call={word} start={} to={to}", height(random))
        }),
        5 => {
            let height = height(random);
            let start = neighbour(random, height);
            let set = format!("call=map a=0 b={height} to=all");
            return [set, format!("call=top start={start} to={other}")];
        }
        _ => to.map(|to| visiting_line(random, session, to)),
    };
    if random.once_in(2) {
        pair.reverse();
    }
    pair
}

/// A map and its unmap, in either order.
fn map_and_unmap(random: &mut Random, session: &Session) -> [String; 2] {
    let (a, b, to) = (factor(random), value(random), few_targets(random, session));
    let mut pair = ["map", "unmap"].map(|word| format!("call={word} a={a} b={b} to={to}"));
    if random.once_in(2) {
        pair.reverse();
    }
    pair
}

/// The call that was accepted last, if it stands where the next joins it.
fn last_operation(session: &Session) -> Option<&Operation> {
    match session.top.back() {
        Some(Waiting::Visit(operation)) => Some(operation),
        Some(Waiting::Add { .. }) => None,
        None => session.stations.first()?.streamlet.back()?.last(),
    }
}

/// Asks for the top of what the last call set, mostly; else sets few nodes to a height, or
/// asks for their top.
fn height_line(random: &mut Random, last: Option<&Operation>) -> String {
    let set = last.and_then(|last| match last.act {
        Act::Map { a: 0, b } => Some((b, &last.targets)),
        _ => None,
    });
    if let Some((height, targets)) = set.filter(|_| !random.once_in(3)) {
        let start = neighbour(random, height);
        return format!("call=top start={start} to={}", to_text(targets));
    }
    let to = random.choose(&["1", "2", "3", "1,2", "1,2,3", "1,2,3,64"]);
    let height = height(random);
    if random.once_in(2) {
        format!("call=map a=0 b={height} to={to}")
    } else {
        format!("call=top start={height} to={to}")
    }
}

/// The first unit of a streamlet for which a test holds.
fn find(station: &Station, test: impl Fn(usize) -> bool) -> Option<usize> {
    (0..station.streamlet.len()).find(|&unit| test(unit))
}

/// Whether this unit and the next are maps of one target list, whatever their labels.
fn is_fusible(station: &Station, unit: usize) -> bool {
    let map = |unit: usize| match station.streamlet.get(unit)?.as_slice() {
        [operation] if matches!(operation.act, Act::Map { .. }) => Some(&operation.targets),
        _ => None,
    };
    map(unit).is_some() && map(unit) == map(unit + 1)
}

/// A step that marks or all-calls decide on, at times: to mark the all-calls of a unit, and
/// then to cut it, so that they can fuse; to fuse, swap or join an all-call and its
/// neighbour; to finish an all-call, wherever it stands.
fn all_step_line(random: &mut Random, station: &Station) -> Option<String> {
    let at = station.node.key;
    let head = &station.streamlet[0];
    if joins_alls(head) && !random.once_in(4) {
        return Some(if head.iter().all(is_marked) {
            format!("step=split at={at} unit=1 after=1")
        } else {
            format!("step=realise at={at}")
        });
    }
    let beside = find(station, |unit| is_beside_all(station, unit));
    if let Some(unit) = beside.filter(|_| random.once_in(2)) {
        let pair = [unit, unit + 1].map(|unit| &station.streamlet[unit][0]);
        let maps = pair.iter().all(|op| matches!(op.act, Act::Map { .. }));
        let steps: &[&str] = match maps {
            true if pair.iter().any(|op| is_marked(op)) => &["fuse"],
            true => &["fuse", "join", "join"],
            false => &["swap", "swap", "join"],
        };
        let step = random.choose(steps);
        return Some(format!("step={step} at={at} unit={}", unit + 1));
    }
    let finishes = head.iter().any(is_all) && random.once_in(8);
    finishes.then(|| format!("step=finish at={at}"))
}

fn is_all(operation: &Operation) -> bool {
    matches!(operation.targets, Targets::All { .. })
}

fn is_marked(operation: &Operation) -> bool {
    operation.targets == Targets::All { done: true }
}

/// Whether a unit has several operations, all of them all-calls.
fn joins_alls(unit: &Unit) -> bool {
    unit.len() > 1 && unit.iter().all(is_all)
}

/// Whether this unit and the next are one operation each, and an all-call among them.
fn is_beside_all(station: &Station, unit: usize) -> bool {
    let single = |unit: usize| match station.streamlet.get(unit)?.as_slice() {
        [operation] => Some(is_all(operation)),
        _ => None,
    };
    matches!((single(unit), single(unit + 1)), (Some(first), Some(second)) if first || second)
}

/// A step that the head unit of this streamlet allows.
fn head_step(station: &Station) -> &'static str {
    let is_last = station.node.key == 1;
    let head = &station.streamlet[0];
    if head.iter().any(|op| op.targets.has(&station.node)) {
        "realise"
    } else if is_last || head.iter().any(|op| op.targets.are_none()) {
        "finish"
    } else {
        "move"
    }
}

/// Changes, removes, doubles or appends some bytes.
pub fn damage(random: &mut Random, bytes: &mut Vec<u8>) {
    for _ in 0..=random.below(3) {
        let place = random.below(bytes.len() as u64 + 1) as usize;
        let byte = random.choose(b"0123456789,= \r\0abcklnprt\xff");
        match random.below(5) {
            0 if place < bytes.len() => bytes[place] = byte,
            1 if place < bytes.len() => {
                bytes.remove(place);
            }
            2 => bytes.truncate(place),
            3 if random.once_in(4) => bytes.resize(250 + random.below(12) as usize, byte),
            _ => bytes.insert(place, byte),
        }
    }
}

/// Small values are as likely as large ones, so that maps are sometimes the identity; some
/// stand where the sign changes, since tops compare signed numbers.
fn value(random: &mut Random) -> u32 {
    match random.below(7) {
        0 => random.below(3) as u32,
        1 => u32::MAX - random.below(3) as u32,
        2 => 65_536,
        3 => random.bits() as u32,
        4 => LEAST - 2 + random.below(4) as u32,
        _ => random.below(100) as u32,
    }
}

/// The a of a map and its unmap: mostly odd, so that it has an inverse.
fn factor(random: &mut Random) -> u32 {
    let a = if random.once_in(2) {
        random.bits() as u32
    } else {
        value(random)
    };
    if random.once_in(5) {
        a & !1
    } else {
        a | 1
    }
}

/// A number to be compared with this one: the same or a neighbour, here or half the way
/// round, where a difference of the two has the wrong sign.
fn neighbour(random: &mut Random, value: u32) -> u32 {
    let away = random.choose(&[0, LEAST]);
    let beside = random.choose(&[u32::MAX, 0, 1]);
    value.wrapping_add(away).wrapping_add(beside)
}

/// A number for tops to compare: mostly where orders part, else any.
fn height(random: &mut Random) -> u32 {
    if random.once_in(5) {
        random.bits() as u32
    } else {
        random.choose(&HEIGHTS)
    }
}

/// A key that has a node, mostly.
fn key(random: &mut Random, session: &Session) -> u64 {
    match random.below(30) {
        0 => random.choose(&[0, 65, 66, 256, 4_294_967_295]),
        1 | 2 => 1 + random.below(64),
        _ => 1 + random.below(session.stations.len() as u64 + 2),
    }
}

/// One of three keys, so that a list gets copies of it.
fn few_key(random: &mut Random) -> u64 {
    random.choose(&[1, 1, 2, 3])
}

/// An operand key: every second one out of few, so that links, unlinks and nears meet.
fn link_key(random: &mut Random, session: &Session) -> u64 {
    if random.once_in(2) {
        few_key(random)
    } else {
        key(random, session)
    }
}

/// The key of a station with a unit, mostly, since steps elsewhere are refused.
fn busy_key(random: &mut Random, session: &Session) -> u64 {
    let busy = session.stations.iter().filter(|s| !s.streamlet.is_empty());
    let busy: Vec<u64> = busy.map(|s| u64::from(s.node.key)).collect();
    if busy.is_empty() || random.once_in(12) {
        key(random, session)
    } else {
        random.choose(&busy)
    }
}

/// Rising keys most of the time, and often the same few, so that maps can fuse; key 64
/// is mostly missing, so that fused maps leave something.
fn target_text(random: &mut Random, session: &Session) -> String {
    if random.once_in(3) {
        return String::from(random.choose(&["", "1", "1,2", "1,2", "2,3", "1,64", "1,64"]));
    }
    let most = if random.once_in(8) { 10 } else { 5 };
    let count = random.below(most);
    let mut keys: Vec<u64> = (0..count).map(|_| key(random, session)).collect();
    if !random.once_in(12) {
        keys.sort_unstable();
        keys.dedup();
    }
    text(&keys)
}

/// Mostly a few nodes, whose values an unmap then restores; else any, or all, or eight and
/// nine, or such that an unmap of an even a has two refusals.
fn few_targets(random: &mut Random, session: &Session) -> String {
    let lists: &[&str] = match random.below(10) {
        0 => return target_text(random, session),
        1 => &["1,2,3,4,5,6,7,8", "1,2,3,4,5,6,7,8,9"],
        2 => &["0,1", "1,65", "2,1", "2,2", "2,2,65"],
        3 => &["all"],
        _ => &["1", "2", "1,2", "1,2", "1,2,3", "1,2,64"],
    };
    String::from(random.choose(lists))
}

/// The targets as a line names them, or those that remain.
fn to_text(targets: &Targets) -> String {
    match targets {
        Targets::Keys(keys) => text(keys),
        Targets::All { .. } => String::from("all"),
    }
}

fn text<T: ToString>(keys: &[T]) -> String {
    let keys: Vec<String> = keys.iter().map(T::to_string).collect();
    keys.join(",")
}
