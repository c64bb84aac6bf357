//! Sessions and images that tests start from, and images that break refusal 2.

use crate::image::{image, IMAGE_BYTES};
use crate::program::dispatch;
use crate::session::{Act, Operation, Outcome, Session, Station, Targets, Waiting};

type Image = [u8; IMAGE_BYTES];

const NODE: usize = 16;
const OPERATION: usize = 1040;
const RESULT: usize = 3088;

/// A session after lines that are all served.
fn after(lines: &[&str]) -> Session {
    let mut session = Session::open();
    for line in lines {
        let answer = dispatch(&mut session, line.as_bytes(), &mut [0; 8], &mut [0; 64]);
        assert!(answer >= 0, "{line}: {answer}");
    }
    session
}

/// Nodes 1 to 3, two with links; at station 2 a unit of a sum and an unlink that has
/// removed two copies, and a top that has met a value above its start of -1; a fused map
/// at station 3, two calls waiting, results 1 to 3.
pub fn rich() -> Image {
    image(&after(&[
        "call=add value=5",
        "call=add value=7",
        "call=add value=258",
        "step=drain",
        "call=link key=2 to=1,2,3",
        "call=link key=2 to=3",
        "call=link key=64 to=1,2",
        "step=drain",
        "claim=4",
        "claim=5",
        "claim=6",
        "call=sum start=10 to=1,2,9",
        "call=unlink key=2 to=1,3",
        "step=admit",
        "step=admit",
        "step=join at=3 unit=1",
        "step=realise at=3",
        "step=move at=3",
        "call=top start=4294967295 to=1,3",
        "step=admit",
        "step=realise at=3",
        "step=move at=3",
        "call=map a=3 b=4 to=1,3",
        "call=map a=2 b=1 to=1,3",
        "step=admit",
        "step=admit",
        "step=fuse at=3 unit=1",
        "call=near key=2 start=65536 to=2",
        "call=add value=9",
    ]))
}

/// Nodes 1 to 3, each linked to 2; at station 1 a fused map for all, marked; at station 2 a
/// unit of an unlink for all, which has removed a copy and has no mark, and a sum without
/// targets; at station 3 a top for all, marked, and a map to 1; a near for all, an add and
/// a link to 2 waiting.
pub fn whole() -> Image {
    image(&after(&[
        "call=add value=5",
        "call=add value=7",
        "call=add value=258",
        "call=link key=2 to=all",
        "step=drain",
        "claim=4",
        "call=map a=3 b=4 to=all",
        "call=map a=2 b=1 to=all",
        "step=admit",
        "step=admit",
        "step=fuse at=3 unit=1",
        "step=realise at=3",
        "step=move at=3",
        "step=realise at=2",
        "step=move at=2",
        "step=realise at=1",
        "call=unlink key=2 to=all",
        "call=sum start=10 to=",
        "step=admit",
        "step=admit",
        "step=join at=3 unit=1",
        "step=realise at=3",
        "step=move at=3",
        "call=top start=4294967295 to=all",
        "call=map a=5 b=6 to=1",
        "step=admit",
        "step=admit",
        "step=realise at=3",
        "call=near key=2 start=65536 to=all",
        "call=add value=9",
        "call=link key=3 to=2",
    ]))
}

/// A sum without targets.
pub fn sum(label: u16) -> Operation {
    Operation {
        act: Act::Sum { held: 0 },
        targets: Targets::Keys(Vec::new()),
        labels: vec![label],
    }
}

/// A session with as many of these as are asked for, and nothing else to refuse.
pub fn crowd(nodes: u8, adds: u16, sums: u16, results: u16) -> Session {
    let mut session = Session::open();
    let mut labels = 1..;
    for key in 1..=nodes {
        session.stations.insert(0, Station::new(key, 0));
    }
    for label in labels.by_ref().take(usize::from(adds)) {
        session.top.push_back(Waiting::Add { label, value: 1 });
    }
    for label in labels.by_ref().take(usize::from(sums)) {
        session.top.push_back(Waiting::Visit(sum(label)));
    }
    for label in labels.take(usize::from(results)) {
        let left = Vec::new();
        session.results.insert(label, Outcome { value: 1, left });
    }
    session.last = adds + sums + results;
    session
}

/// The fresh image as another version would write it.
fn fresh_of(version: u8) -> Image {
    let mut bytes = image(&Session::open());
    bytes[0] = version;
    bytes
}

/// Images that each break a fact of refusal 2, and what is broken.
pub fn broken() -> Vec<(&'static str, Image)> {
    let mut images: Vec<(&str, Image)> = vec![
        ("65 nodes and adds", image(&crowd(61, 4, 0, 0))),
        ("65 nodes and adds", image(&crowd(1, 64, 0, 0))),
        ("65 live", image(&crowd(0, 0, 64, 1))),
        ("65 live", image(&crowd(0, 0, 1, 64))),
        ("no version", fresh_of(0)),
        ("version 1, which means the same here", fresh_of(1)),
        ("version 2, which means the same here", fresh_of(2)),
    ];
    for &(what, changes) in CHANGES {
        images.push((what, changed(rich(), changes)));
    }
    for place in 6..16 {
        images.push(("zero in the head", changed(rich(), &[(place, 1)])));
    }
    for &(what, changes) in ALL_CHANGES {
        images.push((what, changed(whole(), changes)));
    }
    images
}

/// An image with other bytes at some places.
pub fn changed(mut bytes: Image, changes: &[(usize, u8)]) -> Image {
    for &(place, byte) in changes {
        assert_ne!(bytes[place], byte, "nothing changes at {place}");
        bytes[place] = byte;
    }
    bytes
}

/// A place of an operation's record.
pub const fn operation(index: usize, place: usize) -> usize {
    OPERATION + 32 * index + place
}

/// Places and bytes of the rich image.
const CHANGES: &[(&str, &[(usize, u8)])] = &[
    ("version", &[(0, 0)]),
    ("version", &[(0, 1)]),
    ("version", &[(0, 2)]),
    ("version", &[(0, 4)]),
    (
        "version 1, whose unlinks hold 0",
        &[(0, 1), (operation(1, 8), 0)],
    ),
    (
        "version 2, whose top would hold 4294967295",
        &[
            (0, 2),
            (operation(2, 8), 255),
            (operation(2, 9), 255),
            (operation(2, 10), 255),
            (operation(2, 11), 255),
        ],
    ),
    ("a node fewer", &[(1, 2)]),
    ("a node more", &[(1, 4)]),
    ("65 nodes", &[(1, 65)]),
    ("255 nodes", &[(1, 255)]),
    ("an operation fewer", &[(2, 5)]),
    ("an operation more", &[(2, 7)]),
    ("65 operations", &[(2, 65)]),
    ("a result fewer", &[(3, 2)]),
    ("a result more", &[(3, 4)]),
    ("65 results", &[(3, 65)]),
    ("last label below a live one", &[(4, 12)]),
    ("key of another", &[(NODE + 4, 2)]),
    ("keys rise", &[(NODE + 4, 2), (NODE + 16 + 4, 1)]),
    ("key 0", &[(NODE + 4, 0)]),
    ("a gap", &[(NODE + 32 + 4, 4)]),
    ("nine links", &[(NODE + 5, 9)]),
    ("255 links", &[(NODE + 5, 255)]),
    ("link 0", &[(NODE + 6, 0)]),
    ("link 65", &[(NODE + 6, 65)]),
    ("a link past the count", &[(NODE + 5, 1)]),
    ("a link too few", &[(NODE + 5, 3)]),
    ("zero after the links", &[(NODE + 14, 1)]),
    ("zero after the links", &[(NODE + 15, 1)]),
    ("an unused node", &[(NODE + 16 * 3, 1)]),
    ("an unused node", &[(OPERATION - 1, 1)]),
    ("station 0", &[(operation(0, 0), 0)]),
    ("station of no node", &[(operation(5, 0), 4)]),
    ("station 66", &[(operation(5, 0), 66)]),
    ("not from the back forwards", &[(operation(3, 0), 1)]),
    ("top stream before a station", &[(operation(0, 0), 65)]),
    ("opens nothing", &[(operation(0, 1), 0)]),
    ("opens nothing in the top stream", &[(operation(4, 1), 0)]),
    ("opens 2", &[(operation(0, 1), 2)]),
    ("kind 8", &[(operation(0, 2), 8)]),
    ("an add at a station", &[(operation(5, 0), 3)]),
    ("operand of a sum", &[(operation(0, 3), 1)]),
    ("operand of a top", &[(operation(2, 3), 1)]),
    ("operand of a map", &[(operation(3, 3), 1)]),
    ("operand of an add", &[(operation(5, 3), 1)]),
    ("operand 0", &[(operation(1, 3), 0)]),
    ("operand 65", &[(operation(4, 3), 65)]),
    ("a of a sum", &[(operation(0, 4), 1)]),
    ("a of an unlink", &[(operation(1, 7), 1)]),
    (
        "an unlink's count in a",
        &[(operation(1, 4), 2), (operation(1, 8), 0)],
    ),
    ("a of a top", &[(operation(2, 4), 1)]),
    ("a of a top", &[(operation(2, 7), 255)]),
    ("a of a near", &[(operation(4, 4), 1)]),
    ("a of an add", &[(operation(5, 4), 1)]),
    ("nine targets", &[(operation(0, 12), 9)]),
    ("a target too few", &[(operation(0, 12), 4)]),
    ("a target past the count", &[(operation(0, 12), 2)]),
    ("target 0", &[(operation(0, 13), 0)]),
    ("target 65", &[(operation(0, 15), 65)]),
    ("targets equal", &[(operation(0, 14), 1)]),
    ("targets fall", &[(operation(0, 13), 3)]),
    (
        "an add with a target",
        &[(operation(5, 12), 1), (operation(5, 13), 1)],
    ),
    ("no label", &[(operation(0, 21), 0), (operation(0, 22), 0)]),
    (
        "an add without a label",
        &[(operation(5, 21), 0), (operation(5, 22), 0)],
    ),
    (
        "a sum of two labels",
        &[(operation(0, 21), 2), (operation(0, 24), 4)],
    ),
    (
        "an unlink of two labels",
        &[(operation(1, 21), 2), (operation(1, 24), 4)],
    ),
    (
        "a top of two labels",
        &[(operation(2, 21), 2), (operation(2, 24), 4)],
    ),
    (
        "an add of two labels",
        &[(operation(5, 21), 2), (operation(5, 24), 4)],
    ),
    ("five labels", &[(operation(3, 21), 5)]),
    ("label 0", &[(operation(0, 22), 0)]),
    ("a label above the last", &[(operation(0, 22), 14)]),
    ("a label far above the last", &[(operation(0, 23), 1)]),
    ("a label twice in a map", &[(operation(3, 24), 10)]),
    ("a label twice in operations", &[(operation(0, 22), 8)]),
    (
        "a label in an operation and a result",
        &[(operation(0, 22), 3)],
    ),
    ("an add's label twice", &[(operation(5, 22), 12)]),
    ("a label past the count", &[(operation(0, 24), 4)]),
    ("an unused operation", &[(operation(6, 0), 1)]),
    ("an unused operation", &[(RESULT - 1, 1)]),
    ("label 0", &[(RESULT, 0)]),
    ("labels fall", &[(RESULT, 4)]),
    ("a label twice", &[(RESULT, 2)]),
    ("a label above the last", &[(RESULT + 32, 14)]),
    ("nine left", &[(RESULT + 6, 9)]),
    ("left 0", &[(RESULT + 6, 1)]),
    ("left 65", &[(RESULT + 6, 1), (RESULT + 7, 65)]),
    (
        "left equal",
        &[(RESULT + 6, 2), (RESULT + 7, 4), (RESULT + 8, 4)],
    ),
    (
        "left fall",
        &[(RESULT + 6, 2), (RESULT + 7, 4), (RESULT + 8, 3)],
    ),
    ("left past the count", &[(RESULT + 7, 1)]),
    ("zero after left", &[(RESULT + 15, 1)]),
    ("an unused result", &[(RESULT + 16 * 3, 1)]),
    ("an unused result", &[(IMAGE_BYTES - 1, 1)]),
];

/// Places and bytes of the whole image.
const ALL_CHANGES: &[(&str, &[(usize, u8)])] = &[
    ("all 2, marked", &[(operation(0, 30), 2)]),
    ("all 255", &[(operation(1, 30), 255)]),
    ("all 2 beside no targets", &[(operation(2, 30), 2)]),
    ("all 2 in the top stream", &[(operation(5, 30), 2)]),
    ("mark 2", &[(operation(0, 31), 2)]),
    ("mark 2", &[(operation(1, 31), 2)]),
    ("mark 255", &[(operation(3, 31), 255)]),
    ("mark 2 in the top stream", &[(operation(5, 31), 2)]),
    ("mark without all", &[(operation(0, 30), 0)]),
    ("mark without all", &[(operation(3, 30), 0)]),
    ("mark beside no targets", &[(operation(2, 31), 1)]),
    ("mark beside targets", &[(operation(4, 31), 1)]),
    ("mark in the top stream", &[(operation(5, 31), 1)]),
    (
        "mark without all in the top stream",
        &[(operation(5, 30), 0), (operation(5, 31), 1)],
    ),
    (
        "mark beside targets in the top stream",
        &[(operation(7, 31), 1)],
    ),
    ("all beside a target", &[(operation(4, 30), 1)]),
    (
        "all and mark beside a target",
        &[(operation(4, 30), 1), (operation(4, 31), 1)],
    ),
    (
        "all beside a target in the top stream",
        &[(operation(7, 30), 1)],
    ),
    (
        "a target beside all",
        &[(operation(1, 12), 1), (operation(1, 13), 1)],
    ),
    (
        "a target beside all and mark",
        &[(operation(0, 12), 1), (operation(0, 13), 3)],
    ),
    (
        "a target beside all in the top stream",
        &[(operation(5, 12), 1), (operation(5, 13), 64)],
    ),
    ("a count beside all", &[(operation(1, 12), 1)]),
    ("nine targets beside all", &[(operation(1, 12), 9)]),
    ("255 targets beside all", &[(operation(3, 12), 255)]),
    ("a key past the count beside all", &[(operation(1, 13), 1)]),
    ("a key past the count beside all", &[(operation(3, 20), 1)]),
    ("an add for all", &[(operation(6, 30), 1)]),
    ("an add with a mark", &[(operation(6, 31), 1)]),
    (
        "an add for all with a mark",
        &[(operation(6, 30), 1), (operation(6, 31), 1)],
    ),
    (
        "an all-top of two labels",
        &[(operation(3, 21), 2), (operation(3, 24), 4)],
    ),
    ("an all-map of five labels", &[(operation(0, 21), 5)]),
    ("operand 0 of an all-unlink", &[(operation(1, 3), 0)]),
    ("a of an all-top", &[(operation(3, 4), 1)]),
    ("all in an unused operation", &[(operation(8, 30), 1)]),
    ("mark in an unused operation", &[(operation(8, 31), 1)]),
];
