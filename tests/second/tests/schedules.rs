//! Random schedules against one-at-a-time processing.

mod common;

use std::collections::BTreeSet;

use common::{mapped, top_by, Desk, Undoing, SIGNED, UNDOING, WRONG_ORDERS, WRONG_UNDOINGS};
use second::line::{read_step, Step};
use second::random::Scribe;
use second::{
    meaning, read_call, Act, Call, Node, Operation, Outcome, Session, Tally, Targets, To, Waiting,
};

/// A call takes at most one admit, 63 moves, one finish and 8 realises.
const BOUND: usize = 73;
/// An all-call may take 64 realises.
const ALL_BOUND: usize = 129;

/// A run from opening, with what demand 3 compares: the accepted calls, and every
/// result at the time of its claim.
struct Run {
    desk: Desk,
    accepted: Vec<Call>,
    claimed: Vec<(u16, Outcome)>,
}

impl Run {
    fn new() -> Run {
        Run {
            desk: Desk::new(),
            accepted: Vec::new(),
            claimed: Vec::new(),
        }
    }

    fn serve(&mut self, line: &[u8]) -> i64 {
        let results = self.desk.session.results.clone();
        let answer = self.desk.serve(line);
        if answer > 0 && line.starts_with(b"call=") {
            assert_eq!(answer as usize, self.accepted.len() + 1);
            self.accepted
                .push(read_call(line).expect("it was accepted"));
        }
        if answer > 0 && line.starts_with(b"claim=") {
            let left = &self.desk.session.results;
            let gone = results.into_iter().filter(|(l, _)| !left.contains_key(l));
            self.claimed.extend(gone);
        }
        answer
    }

    fn call(&self, label: u16) -> &Call {
        &self.accepted[usize::from(label) - 1]
    }

    /// The operations that are a map and its unmap fused, in either order.
    fn fused_pairs(&self) -> impl Iterator<Item = &Operation> {
        let operations = self.desk.session.operations();
        operations.filter(|operation| match operation.labels[..] {
            [first, second] => is_pair(self.call(first), self.call(second)),
            _ => false,
        })
    }

    /// Whether an operation of one label holds something else than its call did.
    fn holds_another(&self, operation: &Operation) -> bool {
        let call = self.call(operation.labels[0]);
        matches!(call, Call::Visit { act, .. } if *act != operation.act)
    }

    /// Whether such an operation has acted and has a node yet to meet.
    fn is_under_way(&self, such: fn(&Act) -> bool) -> bool {
        let mut places = self.desk.session.stations.iter().flat_map(|station| {
            let units = station.streamlet.iter().flatten();
            units.map(|operation| (station.node.key, operation))
        });
        places.any(|(at, operation)| {
            let on_the_way = match &operation.targets {
                Targets::Keys(keys) => keys.iter().any(|&key| key <= at),
                Targets::All { done } => at > 1 || !done,
            };
            such(&operation.act) && self.holds_another(operation) && on_the_way
        })
    }

    /// All that demand 3 says about the lines so far.
    fn check(&self) {
        let session = &self.desk.session;
        let (nodes, results) = meaning(&self.accepted);
        let standing = session
            .results
            .iter()
            .map(|(&label, result)| (label, result));
        let claimed = self.claimed.iter().map(|(label, result)| (*label, result));
        let mut known = 0;
        for (label, result) in standing.chain(claimed) {
            assert_eq!(*result, results[usize::from(label) - 1], "label {label}");
            known += 1;
        }
        assert_eq!(known + session.pending(), self.accepted.len());
        assert!(steps_taken(&self.desk.tally) <= self.accepted.iter().map(bound).sum());
        assert_eq!(a_step_is_allowed(session), session.pending() > 0);
        if session.pending() == 0 {
            assert!(graph(session).eq(nodes.iter()));
        }
    }
}

fn graph(session: &Session) -> impl Iterator<Item = &Node> {
    session.stations.iter().map(|station| &station.node)
}

fn is_for_all(call: &Call) -> bool {
    match call {
        Call::Add { .. } => false,
        Call::Visit { to, .. } | Call::Unmap { to, .. } => *to == To::All,
    }
}

fn bound(call: &Call) -> usize {
    if is_for_all(call) {
        ALL_BOUND
    } else {
        BOUND
    }
}

fn steps_taken(tally: &Tally) -> usize {
    tally[..4].iter().map(|&count| count as usize).sum()
}

/// Whether one of the four steps that make progress would be answered 0.
fn a_step_is_allowed(session: &Session) -> bool {
    let at = session.stations.iter().map(|s| s.node.key).flat_map(|key| {
        let of = move |word| format!("step={word} at={key}");
        ["realise", "move", "finish"].map(of)
    });
    let mut lines = at.chain([String::from("step=admit")]);
    lines.any(|line| session.clone().step(line.as_bytes(), &mut [0; 8]) == 0)
}

#[test]
fn random_lists_of_lines() {
    for seed in 0..300 {
        let mut scribe = Scribe::new(seed);
        let mut run = Run::new();
        for place in 0..400 {
            let line = scribe.line(&run.desk.session);
            run.serve(&line);
            if place % 50 == 0 {
                run.check();
            }
        }
        run.check();
        run.serve(b"step=drain");
        assert_eq!(run.desk.session.pending(), 0);
        run.check();
    }
}

/// Without drains: any schedule that goes on taking allowed steps ends, whatever
/// joins, splits, swaps and fuses stand between them.
#[test]
fn schedules_end_by_themselves() {
    for seed in 1000..1100 {
        let mut scribe = Scribe::new(seed);
        let mut run = Run::new();
        for _ in 0..scribe.random.below(60) + 1 {
            let line = scribe.call_line(&run.desk.session);
            run.serve(line.as_bytes());
        }
        while run.desk.session.pending() > 0 {
            let line = scribe.useful_step_line(&run.desk.session);
            run.serve(line.as_bytes());
        }
        run.check();
    }
}

/// The bound is met: 64 nodes, and a call that strikes seven of them and node 1.
#[test]
fn a_call_can_take_73_steps() {
    let mut desk = Desk::after(&["call=add value=1"; 64]);
    desk.all(&["step=drain", "claim=1"]);
    let before = steps_taken(&desk.tally);
    desk.all(&["call=sum start=0 to=1,2,3,4,5,6,7,8", "step=drain"]);
    assert_eq!(steps_taken(&desk.tally) - before, BOUND);
}

/// 64 nodes and one all-call: an admit, 64 realises, 63 moves and a finish.
#[test]
fn an_all_call_can_take_129_steps() {
    let mut desk = Desk::after(&["call=add value=1"; 64]);
    desk.all(&["step=drain", "claim=1"]);
    desk.tally = [0; 8];
    desk.all(&["call=sum start=0 to=all", "step=drain"]);
    assert_eq!(desk.tally, [1, 64, 63, 1, 0, 0, 0, 0]);
    assert_eq!(steps_taken(&desk.tally), ALL_BOUND);
    assert_eq!(desk.result(65), (64, &[][..]));
}

/// Every step line that may be served.
fn step_lines(session: &Session) -> Vec<String> {
    let mut lines = vec![String::from("step=admit")];
    for station in &session.stations {
        let at = station.node.key;
        lines.extend(["realise", "move", "finish"].map(|word| format!("step={word} at={at}")));
        for (place, unit) in station.streamlet.iter().enumerate() {
            let at = format!("at={at} unit={}", place + 1);
            lines.extend(["join", "swap", "fuse"].map(|word| format!("step={word} {at}")));
            lines.extend((1..unit.len()).map(|after| format!("step=split {at} after={after}")));
        }
    }
    lines
}

/// Goes through every session that steps lead to, from these calls, and gives their number.
/// Each has the results of one-at-a-time processing, and those with no call pending the
/// nodes too.
fn every_session(lines: &[&str]) -> usize {
    let start = Desk::after(lines).session;
    let calls = lines
        .iter()
        .map(|line| read_call(line.as_bytes()).expect("accepted"));
    let (nodes, results) = meaning(&calls.collect::<Vec<Call>>());
    let (mut seen, mut open) = (BTreeSet::from([format!("{start:?}")]), vec![start]);
    while let Some(session) = open.pop() {
        for (&label, result) in &session.results {
            assert_eq!(*result, results[usize::from(label) - 1], "label {label}");
        }
        if session.pending() == 0 {
            assert!(graph(&session).eq(nodes.iter()));
        } else {
            assert!(a_step_is_allowed(&session));
        }
        for line in step_lines(&session) {
            let mut next = session.clone();
            let served = next.step(line.as_bytes(), &mut [0; 8]) == 0;
            if served && seen.insert(format!("{next:?}")) {
                open.push(next);
            }
        }
    }
    seen.len()
}

/// All schedules, not some: small scenes of both kinds of call.
#[test]
fn every_schedule_of_small_scenes() {
    let (low, high) = ("call=add value=5", "call=add value=7");
    let (map, other) = ("call=map a=3 b=4 to=all", "call=map a=2 b=1 to=all");
    let (sum, pick) = ("call=sum start=0 to=all", "call=pick start=0 to=all");
    let scenes: [&[&str]; 9] = [
        &[low, high, map, other, sum],
        &[low, high, map, "call=map a=2 b=1 to=1", sum],
        &[
            low,
            high,
            "call=map a=2 b=1 to=2",
            map,
            "call=sum start=0 to=1,9",
        ],
        &[low, high, sum, pick, "call=map a=2 b=1 to=1,2"],
        &[low, high, "call=map a=2 b=1 to=", map, other],
        &[low, map, high, other, sum],
        &[map, low, sum, high, "call=near key=1 start=0 to=all"],
        &[
            low,
            high,
            "call=link key=1 to=all",
            "call=unlink key=1 to=all",
            "call=link key=1 to=2",
        ],
        &[
            low,
            high,
            map,
            "call=unmap a=3 b=4 to=all",
            "call=top start=0 to=1,2",
        ],
    ];
    let counts = scenes.map(every_session);
    assert!(counts.iter().all(|&count| count > 30), "{counts:?}");
    let large: [&[&str]; 3] = [
        &[low, high, map, other, "call=map a=5 b=2 to=1", sum, pick],
        &[
            low,
            high,
            sum,
            "call=map a=2 b=1 to=2",
            map,
            other,
            "call=sum start=1 to=1,9",
        ],
        &[
            low,
            map,
            high,
            "call=map a=2 b=1 to=",
            other,
            sum,
            "call=pick start=0 to=1",
        ],
    ];
    let counts = large.map(every_session);
    assert!(counts.iter().all(|&count| count > 1000), "{counts:?}");
}

/// Two schedules of the same calls leave the same listing.
#[test]
fn schedules_agree() {
    for seed in 2000..2100 {
        let mut scribe = Scribe::new(seed);
        let mut one = Desk::new();
        for _ in 0..40 {
            let line = scribe.call_line(&one.session);
            one.line(&line);
        }
        let mut other = one.clone();
        one.all(&["step=drain"]);
        for _ in 0..200 {
            let line = scribe.useful_step_line(&other.session);
            other.line(&line);
        }
        other.all(&["step=drain"]);
        assert_eq!(one.listing(), other.listing());
    }
}

/// A refused line changes neither session nor tally.
#[test]
fn refusals_change_nothing() {
    for seed in 3000..3050 {
        let mut scribe = Scribe::new(seed);
        let mut desk = Desk::new();
        for _ in 0..300 {
            let line = scribe.line(&desk.session);
            let before = desk.clone();
            if desk.serve(&line) < 0 {
                assert_eq!(desk.session, before.session);
                assert_eq!(desk.tally, before.tally);
            }
        }
    }
}

/// The generator reaches every refusal, so that comparing by it compares them all.
#[test]
fn random_lines_meet_every_refusal() {
    let mut met = BTreeSet::new();
    for seed in 0..60 {
        let mut scribe = Scribe::new(seed);
        let mut desk = Desk::new();
        for _ in 0..3000 {
            let line = scribe.line(&desk.session);
            met.insert(-desk.serve(&line).min(0));
        }
    }
    let all = [0, 10, 11, 12, 13, 14, 20, 21, 22, 30, 31, 32, 40];
    assert_eq!(met.into_iter().collect::<Vec<i64>>(), all);
}

/// An unmap's line with its targets left out.
fn without_targets(line: &[u8]) -> Option<String> {
    let line = std::str::from_utf8(line).ok()?;
    let (numbers, _) = line.strip_prefix("call=unmap")?.split_once(" to=")?;
    Some(format!("call=unmap{numbers} to="))
}

/// The generator has unmaps with an even a and another refusal beside, so that comparing by
/// it compares their order.
#[test]
fn random_lines_tell_the_order_of_40() {
    let (mut keys, mut lists, mut live) = (0, 0, 0);
    for seed in 0..60 {
        let mut scribe = Scribe::new(seed);
        let mut desk = Desk::new();
        for _ in 0..2000 {
            let line = scribe.line(&desk.session);
            let Some(rest) = without_targets(&line) else {
                desk.serve(&line);
                continue;
            };
            let is_full = desk.session.live() >= 64;
            let is_even = desk.clone().line(&rest) == -40;
            let answer = desk.serve(&line);
            keys += u32::from(is_even && answer == -11);
            lists += u32::from(is_even && answer == -12);
            live += u32::from(is_full && answer == -40);
        }
    }
    assert!(
        keys > 20 && lists > 20 && live > 20,
        "{keys}, {lists}, {live}"
    );
}

/// The generator has unlinks that remove no copy, one, several of one list, and more than
/// one list has, and it lets them stop on the way, so that comparing by it compares counts.
#[test]
fn random_lines_remove_copies() {
    let unlink = |act: &Act| matches!(act, Act::Unlink { .. });
    let (mut under_way, mut none, mut one, mut several, mut most) = (0, 0, 0, 0, 0);
    for seed in 0..60 {
        let mut scribe = Scribe::new(seed);
        let mut run = Run::new();
        for _ in 0..1000 {
            let line = scribe.line(&run.desk.session);
            run.serve(&line);
            under_way += u32::from(run.is_under_way(unlink));
        }
        let (_, results) = meaning(&run.accepted);
        for (call, result) in run.accepted.iter().zip(results) {
            if let Call::Visit {
                act: Act::Unlink { .. },
                ..
            } = call
            {
                match result.value {
                    0 => none += 1,
                    1 => one += 1,
                    2..=8 => several += 1,
                    _ => most += 1,
                }
            }
        }
    }
    assert!(under_way > 300, "{under_way}");
    assert!(none > 200 && one > 50, "{none}, {one}");
    assert!(several > 100 && most > 10, "{several}, {most}");
}

/// The values that a call meets after the calls before it, from front to back.
fn values_met(before: &[Call], to: &To) -> Vec<u32> {
    let (nodes, _) = meaning(before);
    let met = nodes.iter().filter(|node| match to {
        To::Keys(keys) => keys.contains(&node.key),
        To::All => true,
    });
    met.map(|node| node.value).collect()
}

/// Whether the second call is the unmap of the first.
fn is_unmap_of(map: &Call, unmap: &Call) -> bool {
    let Call::Unmap { a, b, to } = unmap else {
        return false;
    };
    let (act, to) = (Act::Map { a: *a, b: *b }, to.clone());
    *map == Call::Visit { act, to }
}

/// Whether two calls are a map and its unmap, in either order.
fn is_pair(first: &Call, second: &Call) -> bool {
    is_unmap_of(first, second) || is_unmap_of(second, first)
}

/// The generator's unmaps tell the right map from every wrong one.
#[test]
fn random_lines_tell_wrong_undoings_apart() {
    let mut told = [0; WRONG_UNDOINGS.len()];
    for seed in 0..60 {
        let mut scribe = Scribe::new(seed);
        let mut run = Run::new();
        for _ in 0..1000 {
            let line = scribe.line(&run.desk.session);
            run.serve(&line);
        }
        for (place, call) in run.accepted.iter().enumerate() {
            let Call::Unmap { a, b, to } = call else {
                continue;
            };
            let values = values_met(&run.accepted[..place], to);
            let after = values_met(&run.accepted[..=place], to);
            let by = |undoing: Undoing| -> Vec<u32> {
                let map = undoing(*a, *b);
                values.iter().map(|&value| mapped(map, value)).collect()
            };
            assert_eq!(after, by(UNDOING));
            for (told, (_, undoing)) in told.iter_mut().zip(WRONG_UNDOINGS) {
                *told += u32::from(after != by(undoing));
            }
        }
    }
    for (told, (name, _)) in told.iter().zip(WRONG_UNDOINGS) {
        assert!(*told > 100, "{name}: {told}");
    }
}

/// The generator takes maps back in either order, and fuses them with their unmaps, so that
/// comparing by it compares restored values.
#[test]
fn random_lines_take_maps_back() {
    let (mut restored, mut fused) = ([0; 2], BTreeSet::new());
    for seed in 0..60 {
        let mut scribe = Scribe::new(seed);
        let mut run = Run::new();
        for _ in 0..1000 {
            let line = scribe.line(&run.desk.session);
            run.serve(&line);
            for operation in run.fused_pairs() {
                assert_eq!(operation.act, Act::Map { a: 1, b: 0 });
                fused.insert((seed, operation.labels[0]));
            }
        }
        for (place, pair) in run.accepted.windows(2).enumerate() {
            let (Call::Visit { to, .. } | Call::Unmap { to, .. }) = &pair[0] else {
                continue;
            };
            if is_pair(&pair[0], &pair[1]) {
                let values = |count| values_met(&run.accepted[..place + count], to);
                assert_eq!(values(0), values(2));
                let order = usize::from(is_unmap_of(&pair[1], &pair[0]));
                restored[order] += u32::from(values(0) != values(1));
            }
        }
    }
    assert!(restored.iter().all(|&times| times > 80), "{restored:?}");
    assert!(fused.len() > 30, "{}", fused.len());
}

/// The generator's tops tell the signed order from every wrong one, and it lets them stop
/// on the way with a number below zero, so that comparing by it compares orders.
#[test]
fn random_lines_tell_orders_apart() {
    let below_zero = |act: &Act| matches!(*act, Act::Top { held } if held >= 2_147_483_648);
    let (mut under_way, mut told) = (0, [0; WRONG_ORDERS.len()]);
    for seed in 0..60 {
        let mut scribe = Scribe::new(seed);
        let mut run = Run::new();
        for _ in 0..1000 {
            let line = scribe.line(&run.desk.session);
            run.serve(&line);
            under_way += u32::from(run.is_under_way(below_zero));
        }
        let (_, results) = meaning(&run.accepted);
        for (place, call) in run.accepted.iter().enumerate() {
            let Call::Visit { act, to } = call else {
                continue;
            };
            let Act::Top { held: start } = *act else {
                continue;
            };
            let values = values_met(&run.accepted[..place], to);
            let top = results[place].value;
            assert_eq!(top, top_by(SIGNED, start, &values));
            for (told, (_, order)) in told.iter_mut().zip(WRONG_ORDERS) {
                *told += u32::from(top_by(order, start, &values) != top);
            }
        }
    }
    assert!(under_way > 30, "{under_way}");
    for (told, (name, _)) in told.iter().zip(WRONG_ORDERS) {
        assert!(*told > 8, "{name}: {told}");
    }
}

/// What random lines came upon, of calls for all.
#[derive(Debug, Default)]
struct Reached {
    accepted: u32,
    not_all: u32,
    without_nodes: u32,
    add_behind: u32,
    add_before: u32,
    drains: u32,
    marked_moves: u32,
    finished: u32,
    finish_too_early: u32,
    finish_unmarked: u32,
    swapped: u32,
    swapped_with_listed: u32,
    swap_refused: u32,
    swap_with_listed_refused: u32,
    joined_with_listed: u32,
    fused: u32,
    fused_marked: u32,
    fuse_of_marks_refused: u32,
    fuse_with_listed_refused: u32,
}

fn is_all(operation: &Operation) -> bool {
    matches!(operation.targets, Targets::All { .. })
}

fn is_marked(operation: &Operation) -> bool {
    operation.targets == Targets::All { done: true }
}

fn is_map(operation: &Operation) -> bool {
    matches!(operation.act, Act::Map { .. })
}

impl Reached {
    /// Looks at a line that was answered so, and at the session before it.
    fn look(&mut self, before: &Session, line: &[u8], answer: i64) {
        if line.starts_with(b"call=") {
            self.look_at_call(before, line, answer);
        } else if let Ok(step) = read_step(line) {
            self.look_at_step(before, step, answer == 0);
        }
    }

    fn look_at_call(&mut self, before: &Session, line: &[u8], answer: i64) {
        let text = String::from_utf8_lossy(line);
        let to = text.split_once(" to=").map(|(_, to)| to.to_lowercase());
        let is_near = to.is_some_and(|to| to.contains("al"));
        self.not_all += u32::from(is_near && answer == -10);
        let Ok(call) = read_call(line) else {
            return;
        };
        let add_waits = before.top.iter().any(|w| matches!(w, Waiting::Add { .. }));
        let is_waiting_all = |w: &Waiting| matches!(w, Waiting::Visit(op) if is_all(op));
        let all_waits = before.top.iter().any(is_waiting_all);
        if answer > 0 && is_for_all(&call) {
            self.accepted += 1;
            self.add_before += u32::from(add_waits);
        }
        let is_add = matches!(call, Call::Add { .. });
        self.add_behind += u32::from(answer > 0 && is_add && all_waits);
    }

    fn look_at_step(&mut self, before: &Session, step: Step, served: bool) {
        match step {
            Step::Admit => {
                let first = before.top.front();
                let all = matches!(first, Some(Waiting::Visit(op)) if is_all(op));
                self.without_nodes += u32::from(all && before.stations.is_empty());
            }
            Step::Drain => self.drains += u32::from(before.operations().any(is_all)),
            Step::Move { at } => {
                let marked = head(before, at).iter().any(|op| is_marked(op));
                self.marked_moves += u32::from(served && marked);
            }
            Step::Finish { at } => self.look_at_finish(head(before, at), at == 1, served),
            Step::Join { at, unit } if served => {
                let [first, second] = pair(before, at, unit);
                let both = first.iter().chain(second);
                let alls = both.clone().filter(|op| is_all(op)).count();
                self.joined_with_listed += u32::from(alls > 0 && alls < both.count());
            }
            Step::Swap { at, unit } => self.look_at_swap(pair(before, at, unit), served),
            Step::Fuse { at, unit } => self.look_at_fuse(pair(before, at, unit), served),
            _ => {}
        }
    }

    fn look_at_finish(&mut self, head: &[Operation], last: bool, served: bool) {
        let [operation] = head else {
            return;
        };
        let marked = is_marked(operation);
        self.finished += u32::from(served && last && marked);
        self.finish_too_early += u32::from(!served && !last && marked);
        self.finish_unmarked += u32::from(!served && last && is_all(operation));
    }

    fn look_at_swap(&mut self, pair: [&[Operation]; 2], served: bool) {
        let ([first], [second]) = (pair[0], pair[1]) else {
            return;
        };
        let count = match (is_all(first), is_all(second), served) {
            (false, false, _) => return,
            (true, true, true) => &mut self.swapped,
            (true, true, false) => &mut self.swap_refused,
            (_, _, true) => &mut self.swapped_with_listed,
            (_, _, false) => &mut self.swap_with_listed_refused,
        };
        *count += 1;
    }

    fn look_at_fuse(&mut self, pair: [&[Operation]; 2], served: bool) {
        let ([first], [second]) = (pair[0], pair[1]) else {
            return;
        };
        if !is_map(first) || !is_map(second) || first.labels.len() + second.labels.len() > 4 {
            return;
        }
        if is_all(first) != is_all(second) {
            self.fuse_with_listed_refused += u32::from(!served);
        } else if is_all(first) {
            self.fused += u32::from(served && !is_marked(first));
            self.fused_marked += u32::from(served && is_marked(first));
            self.fuse_of_marks_refused += u32::from(!served);
        }
    }
}

fn unit_at(session: &Session, at: u8, number: usize) -> &[Operation] {
    let mut stations = session.stations.iter();
    let station = stations.find(|station| station.node.key == at);
    let unit = station.and_then(|station| station.streamlet.get(number.checked_sub(1)?));
    unit.map_or(&[], Vec::as_slice)
}

fn head(session: &Session, at: u8) -> &[Operation] {
    unit_at(session, at, 1)
}

fn pair(session: &Session, at: u8, unit: u32) -> [&[Operation]; 2] {
    [0, 1].map(|more| unit_at(session, at, unit as usize + more))
}

/// The generator has both kinds of call in one scene, and what S-3 says of them is met on
/// both sides, so that comparing by it compares all-calls.
#[test]
fn random_lines_reach_what_is_said_of_all_calls() {
    let mut reached = Reached::default();
    let mut both = 0;
    for seed in 0..60 {
        let mut scribe = Scribe::new(seed);
        let mut run = Run::new();
        for _ in 0..1000 {
            let before = run.desk.session.clone();
            let line = scribe.line(&before);
            let answer = run.serve(&line);
            reached.look(&before, &line, answer);
        }
        let alls = run.accepted.iter().filter(|call| is_for_all(call)).count();
        both += u32::from(alls > 10 && run.accepted.len() > 2 * alls);
        run.check();
    }
    let r = &reached;
    assert!(
        both > 30 && r.accepted > 1000 && r.drains > 150,
        "{both}, {r:?}"
    );
    assert!(r.not_all > 80 && r.without_nodes > 15, "{r:?}");
    assert!(r.add_behind > 150 && r.add_before > 150, "{r:?}");
    assert!(r.marked_moves > 500 && r.finished > 30, "{r:?}");
    assert!(r.finish_too_early > 100 && r.finish_unmarked > 10, "{r:?}");
    assert!(r.swapped > 30 && r.swap_refused > 80, "{r:?}");
    assert!(
        r.swapped_with_listed > 60 && r.swap_with_listed_refused > 300,
        "{r:?}"
    );
    assert!(
        r.joined_with_listed > 300 && r.fuse_with_listed_refused > 60,
        "{r:?}"
    );
    assert!(
        r.fused > 15 && r.fused_marked > 6 && r.fuse_of_marks_refused > 30,
        "{r:?}"
    );
}
