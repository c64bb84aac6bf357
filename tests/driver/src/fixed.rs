//! Checks without a seed: each of the host's own refusals, and room.

use hosts::{Entry, LISTING_BYTES, RESULT_BYTES};
use second::random::{session, Random};
use second::samples::{broken, crowd, rich, whole};
use second::{image, Outcome, Session, IMAGE_BYTES};

use crate::lent::{Lent, MET};

/// A line that is served, one that is refused, and none.
const FRAMES: [&[u8]; 5] = [b"call=add value=1", b"step=drain", b"claim=1", b"x", b""];

/// Refusal 1 comes before all others and at every entry.
pub fn lengths() -> Result<(), String> {
    let long = [rich(), rich()].concat();
    for length in [0, 1, 16, IMAGE_BYTES - 1, IMAGE_BYTES + 1, 2 * IMAGE_BYTES] {
        for bytes in [&long[..length], &vec![0; length]] {
            for entry in Entry::ALL {
                for frame in FRAMES {
                    Lent::new(bytes, 0, [5; 8]).expect(-1, entry, frame, 0)?;
                }
            }
        }
    }
    Ok(())
}

/// Images that break refusal 2: what is broken, and the check. Only opening takes them.
pub fn facts() -> impl Iterator<Item = (&'static str, Result<(), String>)> {
    broken()
        .into_iter()
        .map(|(what, bytes)| (what, fact(&bytes)))
}

fn fact(bytes: &[u8]) -> Result<(), String> {
    for room in [0, LISTING_BYTES] {
        let mut lent = Lent::new(bytes, room, [5; 8]);
        for frame in FRAMES {
            for entry in Entry::READERS {
                lent.expect(-2, entry, frame, 0)?;
            }
        }
        lent.expect(-2, Entry::List, &[], 0)?;
        lent.expect(-2, Entry::Page, &[], 0)?;
        lent.expect(0, Entry::Open, &[], 0)?;
    }
    Ok(())
}

/// One byte changed, at every place of some images: both say which of them are still a session's.
pub fn single_bytes() -> Result<(), String> {
    let full = image(&full_session());
    for bytes in [
        rich(),
        whole(),
        full,
        image(&greatest()),
        image(&Session::open()),
    ] {
        for place in 0..IMAGE_BYTES {
            let was = bytes[place];
            let near = [was ^ 1, was.wrapping_add(1), was.wrapping_sub(1)];
            for byte in [0, 1, 2, 5, 8, 9, 64, 65, 66, 255].into_iter().chain(near) {
                let mut changed = bytes;
                changed[place] = byte;
                let frame = FRAMES[(place + usize::from(byte)) % FRAMES.len()];
                let mut lent = Lent::new(&changed, RESULT_BYTES, [0; 8]);
                let told = lent.serve(Entry::of(frame), frame, 0);
                told.map_err(|error| format!("byte {place} is {byte}: {error}"))?;
            }
        }
    }
    Ok(())
}

/// A line of 256 bytes is refused for its length alone, and one of 255 for what it says, wherever it ends.
pub fn long_lines() -> Result<(), String> {
    let lent = Lent::new(&rich(), 0, [0; 8]);
    for (length, end) in
        (240..270).flat_map(|length| [(length, ""), (length, "\n"), (length, "\n1")])
    {
        for (start, refusal) in [
            ("call=unlink key=1 to=1", -12),
            ("call=unlink key=1 to=65", -11),
            ("call=unmap a=2 b=4 to=1", -12),
            ("call=unmap a=2 b=4 to=65", -11),
        ] {
            let mut line = String::from(start);
            while line.len() + 3 < length {
                line.push_str(",1");
            }
            line.push_str(if line.len() + 2 < length { ",11" } else { ",1" });
            let due = if length < 256 { refusal } else { -10 };
            lent.clone()
                .expect(due, Entry::Call, (line + end).as_bytes(), 0)?;
        }
    }
    Ok(())
}

/// The bound for an all-call, 129 steps, is reached: over 64 nodes, with nothing joined, it takes an admit,
/// 64 realises, 63 moves and a finish.
pub fn bound_for_all() -> Result<(), String> {
    let mut lent = Lent::new(&image(&Session::open()), RESULT_BYTES, [0; 8]);
    for label in 1..=64 {
        lent.expect(label, Entry::Call, b"call=add value=1", 0)?;
    }
    lent.expect(0, Entry::Step, b"step=drain", 0)?;
    lent.expect_tally([64, 0, 0, 0, 0, 0, 0, 0])?;
    let add = "label=1 value=1 left=\n";
    lent.expect(add.len() as i64, Entry::Claim, b"claim=1", 0)?;
    let mut lent = lent.with_tally([0; 8]);
    lent.expect(65, Entry::Call, b"call=sum start=0 to=all", 0)?;
    lent.expect(0, Entry::Step, b"step=drain", 0)?;
    lent.expect_tally([1, 64, 63, 1, 0, 0, 0, 0])?;
    let sum = "label=65 value=64 left=\n";
    lent.expect(sum.len() as i64, Entry::Claim, b"claim=65", 0)
}

/// A claim and a listing need room for all that they write, and write no more.
pub fn room() -> Result<(), String> {
    let bytes = image(&greatest());
    claims(&bytes, "65535", RESULT_BYTES)?;
    listings(&bytes, LISTING_BYTES)?;
    let bytes = rich();
    claims(&bytes, "1", "label=1 value=1 left=\n".len())?;
    let list = "nodes=3 results=3 pending=6\nkey=3 value=258 links=\nkey=2 value=7 links=2,64\n\
        key=1 value=5 links=2,64\nlabel=1 value=1 left=\nlabel=2 value=2 left=\nlabel=3 value=3 left=\n";
    listings(&bytes, list.len())
}

fn claims(bytes: &[u8], label: &str, length: usize) -> Result<(), String> {
    let line = format!("claim={label}").into_bytes();
    for room in 0..2 * length {
        let due = if room < length { -33 } else { length as i64 };
        Lent::new(bytes, room, [0; 8]).expect(due, Entry::Claim, &line, 0)?;
    }
    Ok(())
}

fn listings(bytes: &[u8], length: usize) -> Result<(), String> {
    for room in (0..length - 20).step_by(7).chain(length - 20..length + 20) {
        let due = if room < length { -33 } else { length as i64 };
        Lent::new(bytes, room, [0; 8]).expect(due, Entry::List, &[], 0)?;
    }
    Ok(())
}

/// To be asked last: every entry, every load and every page that was to be read back was met with each of its
/// answers and no other, and every count rose.
pub fn all_met() -> Result<(), String> {
    let due: [(Entry, &[i64]); 6] = [
        (Entry::Open, &[-1, 0]),
        (Entry::Call, &[-40, -15, -14, -13, -12, -11, -10, -2, -1, 1]),
        (Entry::Step, &[-22, -21, -20, -11, -10, -2, -1, 0]),
        (Entry::Claim, &[-33, -32, -31, -30, -10, -2, -1, 1]),
        (Entry::List, &[-33, -2, -1, 1]),
        (Entry::Page, &[-34, -2, -1, 1]),
    ];
    let due = due
        .iter()
        .flat_map(|(entry, answers)| answers.iter().map(|answer| (*entry, *answer)));
    MET.with_borrow(|met| {
        let loads = met.loads.iter().copied().eq([-47, -46, 0, 1]);
        let page_nodes = met.page_nodes.iter().copied().eq([-35, -34, 0, 1]);
        let answers = met.answers.iter().copied().eq(due);
        if answers && loads && page_nodes && met.kinds.len() == 8 {
            Ok(())
        } else {
            Err(format!(
                "{:?}, loads {:?}, page_nodes {:?}, and these counts rose: {:?}",
                met.answers, met.loads, met.page_nodes, met.kinds
            ))
        }
    })
}

/// The session with the longest result lines, the longest listing and the longest page.
pub fn greatest() -> Session {
    let mut session = crowd(64, 0, 0, 0);
    for station in &mut session.stations {
        station.node.value = u32::MAX;
        station.node.links = vec![64; 8];
    }
    for label in 65_472..=65_535 {
        let left = (57..=64).collect();
        let value = u32::MAX;
        session.results.insert(label, Outcome { value, left });
    }
    session.last = 65_535;
    session
}

/// A random session with every node, many units and some results.
fn full_session() -> Session {
    let full = |session: &Session| {
        let (nodes, results) = (session.stations.len(), session.results.len());
        nodes == 64 && session.live() == 64 && results > 8 && session.top.len() > 8
    };
    let mut random = Random::new(1);
    std::iter::repeat_with(|| session::any(&mut random))
        .find(full)
        .expect("the iterator has no end")
}
