//! The image: round trips, its places, and each fact of refusal 2.

mod common;

use std::collections::VecDeque;

use common::{top_by, Desk, SIGNED, UNDOING, WRONG_ORDERS};
use second::random::{session, Scribe};
use second::samples::{broken, changed, crowd, operation, rich, sum, whole};
use second::{host, image, session_of, valid, IMAGE_BYTES};
use second::{Act, Operation, Outcome, Session, Station, Targets, Waiting};

const NODE: usize = 16;
const OPERATION: usize = 1040;
const RESULT: usize = 3088;

#[test]
fn records_stand_at_their_places() {
    let bytes = rich();
    assert_eq!(
        bytes[..16],
        [3, 3, 6, 3, 13, 0, 0, 0, 0, 0, 0, 0, 0, 0, 0, 0]
    );
    assert_eq!(
        bytes[NODE..][..16],
        [5, 0, 0, 0, 1, 2, 2, 64, 0, 0, 0, 0, 0, 0, 0, 0]
    );
    assert_eq!(
        bytes[NODE + 32..][..16],
        [2, 1, 0, 0, 3, 0, 0, 0, 0, 0, 0, 0, 0, 0, 0, 0]
    );
    let operation = |index: usize| &bytes[OPERATION + 32 * index..][..32];
    let record = |fields: &[u8]| {
        let mut record = [0; 32];
        record[..fields.len()].copy_from_slice(fields);
        record
    };
    let z = 0;
    assert_eq!(
        operation(0),
        record(&[2, 1, 4, 0, 0, 0, 0, 0, 10, 0, 0, 0, 3, 1, 2, 9, z, z, z, z, z, 1, 7])
    );
    assert_eq!(
        operation(1),
        record(&[2, 0, 3, 2, 0, 0, 0, 0, 2, 0, 0, 0, 1, 1, z, z, z, z, z, z, z, 1, 8])
    );
    assert_eq!(
        operation(2),
        record(&[2, 1, 5, 0, 0, 0, 0, 0, 2, 1, 0, 0, 1, 1, z, z, z, z, z, z, z, 1, 9])
    );
    assert_eq!(
        operation(3),
        record(&[3, 1, 1, 0, 6, 0, 0, 0, 9, 0, 0, 0, 2, 1, 3, z, z, z, z, z, z, 2, 10, 0, 11])
    );
    assert_eq!(
        operation(4),
        record(&[65, 1, 7, 2, 0, 0, 0, 0, 0, 0, 1, 0, 1, 2, z, z, z, z, z, z, z, 1, 12])
    );
    assert_eq!(
        operation(5),
        record(&[65, 1, 0, 0, 0, 0, 0, 0, 9, 0, 0, 0, 0, z, z, z, z, z, z, z, z, 1, 13])
    );
    assert!(bytes[OPERATION + 6 * 32..RESULT]
        .iter()
        .all(|&byte| byte == 0));
    assert_eq!(
        bytes[RESULT + 16..][..16],
        [2, 0, 2, 0, 0, 0, 0, 0, 0, 0, 0, 0, 0, 0, 0, 0]
    );
}

/// Row by row, and zeros elsewhere.
#[test]
fn the_example_of_the_layout() {
    let mut desk = Desk::after(&["call=add value=5", "call=add value=7"]);
    desk.all(&["step=admit", "step=admit", "call=map a=3 b=4 to=1,2"]);
    desk.all(&["call=sum start=10 to=1,2,9", "step=admit"]);
    let mut bytes = [0; IMAGE_BYTES];
    let rows: [(usize, &[u8]); 9] = [
        (0x0000, &[3, 2, 2, 2, 4]),
        (0x0010, &[5, 0, 0, 0, 1]),
        (0x0020, &[7, 0, 0, 0, 2]),
        (0x0410, &[2, 1, 1, 0, 3, 0, 0, 0, 4, 0, 0, 0, 2, 1, 2]),
        (0x0420, &[0, 0, 0, 0, 0, 1, 3]),
        (0x0430, &[65, 1, 4, 0, 0, 0, 0, 0, 10, 0, 0, 0, 3, 1, 2, 9]),
        (0x0440, &[0, 0, 0, 0, 0, 1, 4]),
        (0x0c10, &[1, 0, 1]),
        (0x0c20, &[2, 0, 2]),
    ];
    for (place, row) in rows {
        bytes[place..][..row.len()].copy_from_slice(row);
    }
    assert_eq!(image(&desk.session), bytes);
}

#[test]
fn fresh_images() {
    let mut fresh = [0; IMAGE_BYTES];
    fresh[0] = 3;
    assert_eq!(image(&Session::open()), fresh);
    assert_eq!(session_of(&fresh), Some(Session::open()));
    for version in [1, 2, 4, 255] {
        let mut other = fresh;
        other[0] = version;
        assert_eq!(session_of(&other), None, "version {version}");
    }
    assert_eq!(session_of(&[0; IMAGE_BYTES]), None);
    assert_eq!(session_of(&fresh[1..]), None);
    assert_eq!(session_of(&[]), None);
}

#[test]
fn sessions_come_back_from_their_images() {
    for seed in 0..100 {
        let mut scribe = Scribe::new(seed);
        let mut desk = Desk::new();
        for _ in 0..200 {
            let line = scribe.line(&desk.session);
            desk.serve(&line);
            assert!(valid(&desk.session));
            assert_eq!(
                session_of(&image(&desk.session)).as_ref(),
                Some(&desk.session)
            );
        }
    }
}

/// The host's functions on an image do what the entries do on its session.
#[test]
fn hosts_serve_images_as_sessions() {
    for seed in 100..150 {
        let mut scribe = Scribe::new(seed);
        let mut desk = Desk::new();
        let mut bytes = image(&desk.session);
        let mut tally = [0; 8];
        for _ in 0..200 {
            let mut frame = b"before\n".to_vec();
            let line = scribe.line(&desk.session);
            frame.extend_from_slice(&line);
            frame.extend_from_slice(b"\nafter");
            let mut out = [0; 64];
            let answer = if line.starts_with(b"step=") {
                host::step(&mut bytes, &frame, 7, &mut tally)
            } else if line.starts_with(b"claim=") {
                host::claim(&mut bytes, &frame, 7, &mut out)
            } else {
                host::call(&mut bytes, &frame, 7)
            };
            assert_eq!(answer, desk.serve(&line));
            assert_eq!((bytes, tally), (image(&desk.session), desk.tally));
        }
    }
}

/// Serves a random line and a drain, which must keep the session valid.
fn stays_valid(scribe: &mut Scribe, mut session: Session) {
    let line = scribe.line(&session);
    session.call(&line);
    session.step(&line, &mut [0; 8]);
    session.claim(&line, &mut [0; 64]);
    assert!(valid(&session));
    assert_eq!(session.step(b"step=drain", &mut [0; 8]), 0);
    assert!(valid(&session) && session.pending() == 0);
}

/// Sessions that no run need lead to.
#[test]
fn sessions_without_a_history() {
    let mut scribe = Scribe::new(6);
    for _ in 0..3000 {
        let session = session::any(&mut scribe.random);
        assert!(valid(&session));
        assert_eq!(session_of(&image(&session)).as_ref(), Some(&session));
        stays_valid(&mut scribe, session);
    }
}

/// Whatever passes is the image of a valid session.
#[test]
fn damaged_images() {
    let mut scribe = Scribe::new(7);
    let mut passed = 0;
    for _ in 0..20_000 {
        let mut bytes = image(&session::any(&mut scribe.random));
        session::damage_image(&mut scribe.random, &mut bytes);
        if let Some(session) = session_of(&bytes) {
            passed += 1;
            assert_eq!(image(&session), bytes);
            stays_valid(&mut scribe, session);
        }
    }
    assert!((2_000..18_000).contains(&passed), "{passed}");
}

/// Any bytes at all are answered, and hardly any are an image.
#[test]
fn random_bytes() {
    let mut scribe = Scribe::new(8);
    for _ in 0..2000 {
        let mut bytes = [0; IMAGE_BYTES];
        let dense = scribe.random.once_in(2);
        for byte in &mut bytes {
            if dense || scribe.random.once_in(20) {
                *byte = scribe.random.bits() as u8;
            }
        }
        bytes[0] = 3;
        assert_eq!(session_of(&bytes), None);
        assert_eq!(host::call(&mut bytes, b"call=add value=1", 0), -2);
    }
}

#[test]
fn one_fact_broken() {
    for (what, bytes) in broken() {
        assert_eq!(session_of(&bytes), None, "{what}");
    }
}

/// The all byte and the mark are the last two of an operation's record.
#[test]
fn all_and_mark_stand_at_their_places() {
    let bytes = whole();
    assert_eq!(bytes[..6], [3, 3, 8, 3, 13, 0]);
    let ends: Vec<&[u8]> = (0..8).map(|i| &bytes[operation(i, 30)..][..2]).collect();
    let ends_expected = [
        [1, 1],
        [1, 0],
        [0, 0],
        [1, 1],
        [0, 0],
        [1, 0],
        [0, 0],
        [0, 0],
    ];
    assert_eq!(ends, ends_expected);
    let mut record = [0; 32];
    record[..12].copy_from_slice(&[1, 1, 1, 0, 6, 0, 0, 0, 9, 0, 0, 0]);
    record[21..26].copy_from_slice(&[2, 5, 0, 6, 0]);
    record[30..].copy_from_slice(&[1, 1]);
    assert_eq!(bytes[operation(0, 0)..][..32], record);
    for index in [0, 1, 3, 5] {
        assert_eq!(bytes[operation(index, 12)..][..9], [0; 9], "{index}");
    }
    let session = session_of(&bytes).expect("it was written");
    let marks = |place: usize| -> Vec<&Targets> {
        let units = session.stations[place].streamlet.iter().flatten();
        units.map(|op| &op.targets).collect()
    };
    let (all, done) = (Targets::All { done: false }, Targets::All { done: true });
    assert_eq!(marks(0), [&done, &Targets::Keys(vec![1])]);
    assert_eq!(marks(1), [&all, &Targets::Keys(vec![])]);
    assert_eq!(marks(2), [&done]);
}

/// The other side of what refusal 2 says of the two bytes: operation 2 has no targets,
/// operation 7 waits with one.
#[test]
fn all_and_mark_that_pass() {
    let (all, mark) = (|index| operation(index, 30), |index| operation(index, 31));
    let changes: [&[(usize, u8)]; 9] = [
        &[],
        &[(mark(0), 0)],
        &[(mark(1), 1)],
        &[(mark(0), 0), (mark(3), 0), (mark(1), 1)],
        &[(all(0), 0), (mark(0), 0)],
        &[(all(2), 1)],
        &[(all(2), 1), (mark(2), 1)],
        &[(all(5), 0)],
        &[(all(7), 1), (operation(7, 12), 0), (operation(7, 13), 0)],
    ];
    for changes in changes {
        let bytes = changed(whole(), changes);
        let session = session_of(&bytes).expect("such a session");
        assert_eq!(image(&session), bytes);
        stays_valid(&mut Scribe::new(12), session);
    }
}

#[test]
fn a_session_with_a_waiting_mark_is_not_valid() {
    let mut session = session_of(&whole()).expect("it was written");
    let Some(Waiting::Visit(near)) = session.top.front_mut() else {
        panic!("the near waits first");
    };
    assert_eq!(near.targets, Targets::All { done: false });
    near.targets = Targets::All { done: true };
    assert!(!valid(&session));
}

/// Random sessions have both kinds of call, marked and not, fused and not, and unmarked
/// ones that wait; damage often hits the two bytes, and both passes and is refused there.
#[test]
fn random_sessions_have_all_calls() {
    let mut scribe = Scribe::new(13);
    let (mut both, mut marked, mut unmarked, mut fused, mut waiting) = (0, 0, 0, 0, 0);
    let (mut hit, mut passed) = (0, 0);
    for _ in 0..3000 {
        let session = session::any(&mut scribe.random);
        let is_all = |op: &&Operation| matches!(op.targets, Targets::All { .. });
        let done = |op: &&Operation| op.targets == Targets::All { done: true };
        let alls = session.operations().filter(is_all).count();
        both += u32::from(alls > 0 && alls < session.operations().count());
        marked += session.operations().filter(done).count();
        unmarked += alls - session.operations().filter(done).count();
        let several = |op: &&Operation| op.labels.len() > 1;
        fused += session.operations().filter(done).filter(several).count();
        let all_waits = |w: &&Waiting| matches!(w, Waiting::Visit(op) if is_all(&op));
        waiting += session.top.iter().filter(all_waits).count();
        let before = image(&session);
        let mut after = before;
        session::damage_image(&mut scribe.random, &mut after);
        let ends = (0..64).flat_map(|i| [operation(i, 30), operation(i, 31)]);
        if ends.clone().any(|place| before[place] != after[place]) {
            hit += 1;
            passed += u32::from(session_of(&after).is_some());
        }
    }
    assert!(both > 1000 && waiting > 500, "{both}, {waiting}");
    assert!(marked > 1000 && unmarked > 1000, "{marked}, {unmarked}");
    assert!(fused > 300, "{fused}");
    assert!(
        hit > 200 && passed > 5 && hit - passed > 100,
        "{hit}, {passed}"
    );
}

/// An all-call's act, in any session: the first of the head unit that has not acted there
/// gets its mark, and what moves has none.
#[test]
fn all_calls_without_a_history() {
    let mut scribe = Scribe::new(14);
    let (mut realised, mut moved) = (0, 0);
    for _ in 0..3000 {
        let session = session::any(&mut scribe.random);
        for (place, station) in session.stations.iter().enumerate() {
            let at = station.node.key;
            let Some(head) = station.streamlet.front() else {
                continue;
            };
            let acts = |op: &Operation| match &op.targets {
                Targets::Keys(keys) => keys.contains(&at),
                Targets::All { done } => !done,
            };
            let first = head.iter().position(acts);
            let mut after = session.clone();
            let line = format!("step=realise at={at}");
            let answer = after.step(line.as_bytes(), &mut [0; 8]);
            assert_eq!(answer, if first.is_some() { 0 } else { -22 });
            if let Some(first) = first {
                let unit = &after.stations[place].streamlet[0];
                assert_eq!(unit.len(), head.len());
                if let Targets::All { .. } = head[first].targets {
                    assert_eq!(unit[first].targets, Targets::All { done: true });
                    realised += 1;
                }
                assert_eq!(unit[..first], head[..first]);
                assert_eq!(unit[first + 1..], head[first + 1..]);
            }
            let mut after = session.clone();
            let line = format!("step=move at={at}");
            let answer = after.step(line.as_bytes(), &mut [0; 8]);
            let moves = first.is_none() && at > 1;
            assert_eq!(answer, if moves { 0 } else { -22 });
            if moves {
                let unit = after.stations[place + 1]
                    .streamlet
                    .back()
                    .expect("it moved");
                assert!(unit
                    .iter()
                    .all(|op| op.targets != Targets::All { done: true }));
                let marks = head
                    .iter()
                    .filter(|op| op.targets == Targets::All { done: true });
                moved += marks.count();
            }
        }
    }
    assert!(realised > 500 && moved > 100, "{realised}, {moved}");
}

#[test]
fn counts_at_their_limits() {
    let passes = |session: Session| session_of(&image(&session)) == Some(session);
    assert!(passes(crowd(64, 0, 64, 0)));
    assert!(passes(crowd(64, 0, 0, 64)));
    assert!(passes(crowd(0, 64, 0, 0)));
    assert!(passes(crowd(60, 4, 30, 30)));
}

#[test]
fn units_have_operations() {
    let mut session = crowd(1, 0, 1, 0);
    assert!(valid(&session));
    session.stations[0].streamlet.push_back(Vec::new());
    assert!(!valid(&session));
}

/// What history forbids and refusal 2 doesn't ask.
#[test]
fn history_is_not_tested() {
    let passes =
        |session: &Session| assert_eq!(session_of(&image(session)).as_ref(), Some(session));
    let mut session = crowd(3, 0, 0, 0);
    passes(&session); // nodes, and the last label 0
    session.last = 9;
    passes(&session); // nothing live
    session.top = VecDeque::from([Waiting::Visit(sum(5)), Waiting::Visit(sum(2))]);
    passes(&session); // a top stream in any label order
    let fused = Operation {
        act: Act::Map { a: 1, b: 2 },
        targets: Targets::Keys(vec![3]),
        labels: vec![9, 1, 8, 3],
    };
    session.top.push_back(Waiting::Visit(fused.clone()));
    passes(&session); // several labels on a waiting map, in any order
    session.top.pop_back();
    session.stations[2].streamlet.push_back(vec![fused]);
    passes(&session); // a target that was passed already
    let full = Operation {
        act: Act::Link {
            key: 64,
            full: u32::MAX,
        },
        targets: Targets::Keys(vec![1]),
        labels: vec![4],
    };
    session.stations[2].node.links = vec![7; 8];
    session.stations[2].streamlet.push_front(vec![full]);
    passes(&session); // a link's count is any number, and it wraps
    let left = vec![1, 64];
    session.results.insert(7, Outcome { value: 3, left });
    passes(&session);
    assert_eq!(session.step(b"step=realise at=1", &mut [0; 8]), 0);
    assert_eq!(session.step(b"step=finish at=1", &mut [0; 8]), 0);
    assert_eq!(session.results[&4].value, 0);
}

/// Four bytes of any value: the rich image's unlink, which meets one copy more.
#[test]
fn an_unlinks_count_stands_in_b() {
    let count_at = OPERATION + 32 + 8;
    for count in [0, 1, 64, 65, 0x0403_0201, u32::MAX - 1, u32::MAX] {
        let mut bytes = rich();
        bytes[count_at..][..4].copy_from_slice(&count.to_le_bytes());
        let mut session = session_of(&bytes).expect("any count passes");
        assert_eq!(image(&session), bytes);
        let unlink = session.operations().find(|op| op.labels == [8]);
        let (key, removed) = (2, count);
        assert_eq!(
            unlink.map(|op| &op.act),
            Some(&Act::Unlink { key, removed })
        );
        assert_eq!(session.step(b"step=drain", &mut [0; 8]), 0);
        assert_eq!(session.results[&8].value, count.wrapping_add(1));
    }
}

/// Four bytes of any value: the rich image's top, which is to meet a 5.
#[test]
fn a_tops_number_stands_in_b() {
    let held_at = OPERATION + 2 * 32 + 8;
    for (held, result) in [
        (0, 5),
        (5, 5),
        (6, 6),
        (0x0403_0201, 0x0403_0201),
        (0x7FFF_FFFF, 0x7FFF_FFFF),
        (0x8000_0000, 5),
        (0x8403_0201, 5),
        (0xFFFF_FFFF, 5),
    ] {
        let mut bytes = rich();
        bytes[held_at..][..4].copy_from_slice(&u32::to_le_bytes(held));
        let mut session = session_of(&bytes).expect("any number passes");
        assert_eq!(image(&session), bytes);
        let top = session.operations().find(|op| op.labels == [9]);
        assert_eq!(top.map(|op| &op.act), Some(&Act::Top { held }));
        assert_eq!(session.step(b"step=drain", &mut [0; 8]), 0);
        assert_eq!(session.results[&9].value, result);
    }
}

/// An unlink of key 9 that has removed so many copies.
fn unlink(removed: u32, targets: &[u8]) -> Operation {
    Operation {
        act: Act::Unlink { key: 9, removed },
        targets: Targets::Keys(targets.to_vec()),
        labels: vec![1],
    }
}

/// Which no run comes near: a call removes at most 64 copies.
#[test]
fn an_unlinks_count_wraps() {
    const MOST: u32 = u32::MAX;
    for (held, copies, result) in [
        (0, 8, 8),
        (56, 8, 64),
        (64, 8, 72),
        (MOST - 1, 1, MOST),
        (MOST - 8, 8, MOST),
        (MOST, 0, MOST),
        (MOST, 1, 0),
        (MOST - 7, 8, 0),
        (MOST, 8, 7),
    ] {
        let mut session = crowd(1, 0, 0, 0);
        session.last = 1;
        session.stations[0].node.links = vec![9; copies];
        let unit = vec![unlink(held, &[1, 64])];
        session.stations[0].streamlet.push_back(unit);
        let mut bytes = image(&session);
        let (mut tally, mut out) = ([0; 8], [0; 64]);
        assert_eq!(
            host::step(&mut bytes, b"step=realise at=1", 0, &mut tally),
            0
        );
        let after = bytes[OPERATION + 8..][..4].to_vec();
        assert_eq!(after, result.to_le_bytes(), "{held} and {copies}");
        assert_eq!(
            host::step(&mut bytes, b"step=finish at=1", 0, &mut tally),
            0
        );
        let length = host::claim(&mut bytes, b"claim=1", 0, &mut out);
        let line = format!("label=1 value={result} left=64\n");
        assert_eq!(&out[..length as usize], line.as_bytes());
    }
}

/// An unlink that waits may hold a count too, here 5; what it removes comes on top.
#[test]
fn a_waiting_unlink_with_a_count() {
    let cases: [(u8, &[u8], u32, &[u8]); 6] = [
        (0, &[], 5, &[]),
        (0, &[1], 5, &[1]),
        (1, &[], 5, &[]),
        (1, &[1], 7, &[]),
        (1, &[64], 5, &[64]),
        (1, &[1, 64], 7, &[64]),
    ];
    for (nodes, targets, value, left) in cases {
        let mut session = crowd(nodes, 0, 0, 0);
        session.last = 1;
        for station in &mut session.stations {
            station.node.links = vec![9, 7, 9];
        }
        session.top.push_back(Waiting::Visit(unlink(5, targets)));
        assert_eq!(session_of(&image(&session)).as_ref(), Some(&session));
        assert_eq!(session.step(b"step=drain", &mut [0; 8]), 0);
        let left = left.to_vec();
        assert_eq!(session.results[&1], Outcome { value, left });
    }
}

/// The first operation of the head unit that targets the node.
fn next_to_act(station: &Station) -> Option<&Operation> {
    let mut head = station.streamlet.front()?.iter();
    head.find(|op| op.targets.has(&station.node))
}

/// What an operation holds once it is realised at this station, where it is next to act.
fn act_after(session: &Session, station: &Station, operation: &Operation) -> Act {
    let mut after = session.clone();
    let line = format!("step=realise at={}", station.node.key);
    assert_eq!(after.step(line.as_bytes(), &mut [0; 8]), 0);
    let mut operations = after.operations();
    let same = operations.find(|op| op.labels == operation.labels);
    same.expect("a realise keeps the operation").act.clone()
}

/// Unlinks of random sessions add what they remove to any count, often at its limit.
#[test]
fn unlinks_without_a_history() {
    let mut scribe = Scribe::new(9);
    let (mut none, mut several, mut at_limit, mut wrapped) = (0, 0, 0, 0);
    for _ in 0..3000 {
        let session = session::any(&mut scribe.random);
        for station in &session.stations {
            let Some(operation) = next_to_act(station) else {
                continue;
            };
            let Act::Unlink { key, removed } = operation.act else {
                continue;
            };
            let links = station.node.links.iter();
            let copies = links.filter(|&&link| link == key).count() as u64;
            let count = u64::from(removed) + copies;
            let removed = (count % 4_294_967_296) as u32;
            let unlink = Act::Unlink { key, removed };
            assert_eq!(act_after(&session, station, operation), unlink);
            none += u32::from(copies == 0);
            several += u32::from(copies > 1);
            at_limit += u32::from(copies > 0 && count == 4_294_967_295);
            wrapped += u32::from(count > 4_294_967_295);
        }
    }
    assert!(none > 100 && several > 100, "{none}, {several}");
    assert!(at_limit > 10 && wrapped > 50, "{at_limit}, {wrapped}");
}

/// Tops of random sessions hold any number, and tell the signed order from every wrong one.
#[test]
fn tops_without_a_history() {
    let mut scribe = Scribe::new(10);
    let mut told = [0; WRONG_ORDERS.len()];
    for _ in 0..6000 {
        let session = session::any(&mut scribe.random);
        for station in &session.stations {
            let Some(operation) = next_to_act(station) else {
                continue;
            };
            let Act::Top { held: before } = operation.act else {
                continue;
            };
            let value = [station.node.value];
            let held = top_by(SIGNED, before, &value);
            assert_eq!(act_after(&session, station, operation), Act::Top { held });
            for (told, (_, order)) in told.iter_mut().zip(WRONG_ORDERS) {
                *told += u32::from(top_by(order, before, &value) != held);
            }
        }
    }
    for (told, (name, _)) in told.iter().zip(WRONG_ORDERS) {
        assert!(*told > 4, "{name}: {told}");
    }
}

/// An unmap has no kind of its own: its image is that of the map that it submits.
#[test]
fn an_unmap_stands_as_a_map() {
    let mut desk = Desk::after(&["call=add value=5", "step=drain"]);
    desk.all(&["call=unmap a=3 b=4 to=1"]);
    let mut record = [0; 32];
    record[..12].copy_from_slice(&[65, 1, 1, 0, 0xAB, 0xAA, 0xAA, 0xAA, 0x54, 0x55, 0x55, 0x55]);
    record[12..14].copy_from_slice(&[1, 1]);
    record[21..23].copy_from_slice(&[1, 2]);
    assert_eq!(image(&desk.session)[OPERATION..][..32], record);
}

/// In any session an unmap is answered as the map that it submits is, and leaves the same;
/// but an even a is refused, whatever is full.
#[test]
fn unmaps_without_a_history() {
    let mut scribe = Scribe::new(11);
    let (mut served, mut full, mut spent) = (0, 0, 0);
    for _ in 0..3000 {
        let session = session::any(&mut scribe.random);
        let a = scribe.random.bits() as u32 | 1;
        let b = scribe.random.bits() as u32;
        let before = image(&session);
        let (mut unmap, mut map, mut even) = (before, before, before);
        let line = format!("call=unmap a={a} b={b} to=1,2,64");
        let answer = host::call(&mut unmap, line.as_bytes(), 0);
        let (inverse, back) = UNDOING(a, b);
        let line = format!("call=map a={inverse} b={back} to=1,2,64");
        assert_eq!(host::call(&mut map, line.as_bytes(), 0), answer);
        assert_eq!(unmap, map);
        let line = format!("call=unmap a={} b={b} to=1,2,64", a - 1);
        assert_eq!(host::call(&mut even, line.as_bytes(), 0), -40);
        assert_eq!(even, before);
        served += u32::from(answer > 0);
        full += u32::from(answer == -14);
        spent += u32::from(answer == -15);
    }
    assert!(
        served > 1000 && full > 100 && spent > 100,
        "{served}, {full}, {spent}"
    );
}

/// A waiting map of several labels finishes for all of them.
#[test]
fn a_waiting_map_of_several_labels() {
    let mut session = crowd(0, 0, 0, 0);
    session.last = 3;
    session.top.push_back(Waiting::Visit(Operation {
        act: Act::Map { a: 1, b: 2 },
        targets: Targets::Keys(vec![3]),
        labels: vec![3, 1],
    }));
    assert_eq!(session.step(b"step=admit", &mut [0; 8]), 0);
    let left = vec![3];
    let outcome = Outcome { value: 0, left };
    let expected = [(1, outcome.clone()), (3, outcome)];
    assert!(session.results.into_iter().eq(expected));
}
