//! Checks that take a seed: each does something else for every seed, and the same for one.

use hosts::{Entry, LISTING_BYTES, RESULT_BYTES};
use second::random::{session, Random, Scribe};
use second::{image, line_at, Session, Tally, IMAGE_BYTES};

use crate::lent::Lent;
use crate::pages;

const SCRIPT_LINES: usize = 300;

/// A run from opening: a frame of many lines, served one after the other by their places. Every other
/// frame is damaged first.
pub fn script(seed: u64) -> Result<(), String> {
    let mut scribe = Scribe::new(seed);
    let mut frame = written(&mut scribe);
    let random = &mut scribe.random;
    if random.once_in(2) {
        spoil(random, &mut frame);
    }
    let mut lent = Lent::new(&noise(random, IMAGE_BYTES), 0, [0; 8]);
    lent.expect(0, Entry::Open, &[], 0)?;
    let mut at = 0;
    while at < frame.len() {
        let line = line_at(&frame, at);
        let place = match random.once_in(60) {
            true => random.below(frame.len() as u64 + 3) as usize,
            false => at,
        };
        lent = lent.with_room(room(random, RESULT_BYTES));
        lent.serve(entry(random, line), &frame, place)?;
        if random.once_in(40) {
            list(random, &lent)?;
            pages::returns(random, &lent)?;
        }
        at += line.len() + 1;
    }
    lent.expect(0, Entry::Step, b"step=drain", 0)?;
    list(random, &lent)?;
    pages::returns(random, &lent)
}

/// Lines for a session that no run need lead to, each served by the session as it was.
pub fn any_session(seed: u64) -> Result<(), String> {
    let mut scribe = Scribe::new(seed);
    let session = session::any(&mut scribe.random);
    let bytes = image(&session);
    for _ in 0..8 {
        let line = scribe.line(&session);
        let (frame, at) = surrounded(&mut scribe.random, &line);
        let random = &mut scribe.random;
        let mut lent = Lent::new(&bytes, room(random, RESULT_BYTES), tally(random));
        lent.serve(entry(random, &line), &frame, at)?;
        list(random, &lent)?;
    }
    let random = &mut scribe.random;
    let mut lent = Lent::new(&bytes, 0, tally(random));
    lent.expect(0, Entry::Step, b"step=drain", 0)?;
    list(random, &lent)
}

/// An image with some bytes changed, which may still be a session's.
pub fn damaged_image(seed: u64) -> Result<(), String> {
    let mut scribe = Scribe::new(seed);
    let session = session::any(&mut scribe.random);
    let mut bytes = image(&session);
    session::damage_image(&mut scribe.random, &mut bytes);
    for _ in 0..3 {
        let line = scribe.line(&session);
        let mut lent = Lent::new(&bytes, RESULT_BYTES, [0; 8]);
        lent.serve(Entry::of(&line), &line, 0)?;
    }
    list(&mut scribe.random, &Lent::new(&bytes, 0, [0; 8]))
}

/// Any bytes as an image, any bytes and any words as a frame, any place; and the same frames for a
/// session.
pub fn any_bytes(seed: u64) -> Result<(), String> {
    let random = &mut Random::new(seed);
    let length = match random.once_in(4) {
        true => random.below(2 * IMAGE_BYTES as u64) as usize,
        false => IMAGE_BYTES,
    };
    let bytes = noise(random, length);
    let valid = image(&session::any(random));
    for entry in Entry::ALL {
        let frame = match random.once_in(3) {
            true => random_bytes(random, 300),
            false => words(random),
        };
        let at = match random.once_in(8) {
            true => random.bits() as usize,
            false => random.below(frame.len() as u64 / 2 + 2) as usize,
        };
        for image in [&bytes[..], &valid[..]] {
            let mut lent = Lent::new(image, room(random, LISTING_BYTES), tally(random));
            lent.serve(entry, &frame, at)?;
        }
    }
    Ok(())
}

/// A frame of lines, most of which a session that serves them on the way accepts.
fn written(scribe: &mut Scribe) -> Vec<u8> {
    let mut session = Session::open();
    let mut frame = Vec::new();
    for _ in 0..SCRIPT_LINES {
        let line = scribe.line(&session);
        second::program::dispatch(&mut session, &line, &mut [0; 8], &mut [0; 64]);
        frame.extend(line);
        frame.push(b'\n');
    }
    frame
}

/// Changes, inserts and removes bytes of a frame, newlines too.
fn spoil(random: &mut Random, frame: &mut Vec<u8>) {
    for _ in 0..=random.below(30) {
        let place = random.below(frame.len() as u64) as usize;
        let byte = random.choose(b"\n\n0123456789,= \rackmnpstu\0\xff");
        match random.below(3) {
            0 => frame[place] = byte,
            1 => frame.insert(place, byte),
            _ => {
                frame.remove(place);
            }
        }
    }
}

/// A line in the middle of a frame, and its place; now and then it ends the frame.
fn surrounded(random: &mut Random, line: &[u8]) -> (Vec<u8>, usize) {
    let mut frame = random_bytes(random, 20);
    frame.push(b'\n');
    let at = frame.len();
    frame.extend(line);
    if !random.once_in(4) {
        frame.push(b'\n');
        frame.extend(random_bytes(random, 20));
    }
    (frame, at)
}

/// A line's own entry, mostly.
fn entry(random: &mut Random, line: &[u8]) -> Entry {
    match random.once_in(40) {
        true => random.choose(&Entry::READERS),
        false => Entry::of(line),
    }
}

/// The listing, which must leave the image.
fn list(random: &mut Random, lent: &Lent) -> Result<(), String> {
    let mut lent = lent.with_room(room(random, LISTING_BYTES));
    lent.serve(Entry::List, &[], 0).map(|_| ())
}

/// Room for anything mostly, sometimes for less.
fn room(random: &mut Random, most: usize) -> usize {
    match random.once_in(4) {
        true => random.below(most as u64) as usize,
        false => most + random.below(4) as usize,
    }
}

/// Counts of which some rest and some are about to.
fn tally(random: &mut Random) -> Tally {
    let most = u32::MAX;
    [(); 8].map(|()| {
        let any = random.bits() as u32;
        random.choose(&[0, 7, any, most - 60, most - 1, most, most])
    })
}

/// Bytes for an image: dense or sparse, and often with the head of one.
fn noise(random: &mut Random, length: usize) -> Vec<u8> {
    let gaps = random.choose(&[1, 3, 20, 1000]);
    let mut byte = |_| match random.once_in(gaps) {
        true => random.bits() as u8,
        false => 0,
    };
    let mut bytes: Vec<u8> = (0..length).map(&mut byte).collect();
    let counts = [65, 65, 65, 255, 255].map(|bound| 1.max(random.below(bound)) as u8);
    if length > counts.len() && random.once_in(2) {
        bytes[0] = image(&Session::open())[0];
        bytes[1..=counts.len()].copy_from_slice(&counts);
    }
    bytes
}

fn random_bytes(random: &mut Random, most: u64) -> Vec<u8> {
    let length = random.below(most + 1);
    (0..length).map(|_| random.bits() as u8).collect()
}

/// Words of the lines in any order.
fn words(random: &mut Random) -> Vec<u8> {
    const WORDS: [&str; 58] = [
        "call=",
        "call=",
        "step=",
        "claim=",
        "add",
        "map",
        "link",
        "unlink",
        "sum",
        "top",
        "pick",
        "near",
        "unmap",
        "admit",
        "realise",
        "move",
        "finish",
        "join",
        "split",
        "swap",
        "fuse",
        "drain",
        " value=",
        " a=",
        " b=",
        " key=",
        " start=",
        " to=",
        " to=",
        " to=all",
        " at=",
        " at=",
        " unit=",
        " unit=",
        " after=",
        "0",
        "1",
        "1",
        "2",
        "3",
        "8",
        "64",
        "65",
        "00",
        "-1",
        "all",
        "ALL",
        "2147483648",
        "4294967295",
        "4294967296",
        "42949672950",
        ",",
        ",",
        " ",
        "=",
        "\n",
        "\n",
        "\r\n",
    ];
    let count = 1 + random.below(40);
    let words = (0..count).map(|_| random.choose(&WORDS));
    words.collect::<String>().into_bytes()
}
