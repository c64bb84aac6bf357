//! Loads: each is made by both and compared, and its lines are sent to a fresh session.

use hosts::{Entry, LOAD_BYTES, PRODUCT};
use second::load::lines;
use second::random::Random;
use second::{image, line_at, Session};

use crate::lent::Lent;

/// The most lines that a load has.
const MOST: u32 = 64;
/// Seeds for the checks that take none. The first line of 1762 is as long as a line can be.
const SEEDS: [u32; 8] = [0, 1, 2, 86, 65_536, 1 << 31, 1762, u32::MAX];

/// The first line from seed 0, by hand.
pub fn first_line() -> Result<(), String> {
    let line = b"call=pick start=18256 to=19,26,47,58,63\n";
    let made = expect(line.len() as i64, 0, 1, line.len())?;
    if made == line {
        Ok(())
    } else {
        Err(format!("both make '{}'", made.escape_ascii()))
    }
}

/// From no line to as many as there can be: with just the room for them, with a byte less, and with more.
pub fn room() -> Result<(), String> {
    for seed in SEEDS {
        for count in [0, 1, 63, MOST] {
            let length = length(seed, count);
            send(&expect(length as i64, seed, count, length)?, count)?;
            expect(length as i64, seed, count, LOAD_BYTES - 1)?;
            expect(length as i64, seed, count, LOAD_BYTES)?;
            if length > 0 {
                expect(-47, seed, count, length - 1)?;
                expect(-47, seed, count, 0)?;
            }
        }
    }
    Ok(())
}

/// 46 comes before 47, and whatever the room is.
pub fn counts() -> Result<(), String> {
    for seed in SEEDS {
        let whole = length(seed, MOST);
        for count in [65, 66, 128, 1 << 31, u32::MAX] {
            for room in [0, whole - 1, whole, LOAD_BYTES, 2 * LOAD_BYTES] {
                expect(-46, seed, count, room)?;
            }
        }
    }
    Ok(())
}

/// An output of no byte may stand anywhere.
pub fn nowhere() -> Result<(), String> {
    let answers = [0, 1, MOST, 65].map(|count| PRODUCT.load(0, count, &mut []));
    if answers == [0, -47, -47, -46] {
        Ok(())
    } else {
        Err(format!("answers {answers:?}"))
    }
}

/// Any count and room. Then all lines of the same seed, with a byte too little room and with just enough:
/// they begin with those made before, and each is sent.
pub fn seeded(seed: u64) -> Result<(), String> {
    let random = &mut Random::new(seed);
    let (seed, count) = (load_seed(random, seed), any_count(random));
    let room = any_room(random, length(seed, count.min(MOST)));
    let mut lent = Lent::new(&[], room, [0; 8]);
    let written = lent.load(seed, count)?.max(0) as usize;
    let whole = length(seed, MOST);
    expect(-47, seed, MOST, whole - 1)?;
    let made = expect(whole as i64, seed, MOST, whole)?;
    if !made.starts_with(&lent.output()[..written]) {
        return Err(format!(
            "Load of seed {seed}: {count} lines begin otherwise than {MOST}"
        ));
    }
    send(&made, MOST)
}

/// The gate's seeds, halved, and in turn with them numbers from all 32 bits.
fn load_seed(random: &mut Random, seed: u64) -> u32 {
    match seed % 2 {
        0 => (seed / 2) as u32,
        _ => random.bits() as u32,
    }
}

fn any_count(random: &mut Random) -> u32 {
    let any = random.below(65) as u32;
    let refused = random.choose(&[65, 66, 1 << 31, u32::MAX]);
    random.choose(&[0, 1, 63, MOST, any, any, any, refused])
}

fn any_room(random: &mut Random, length: usize) -> usize {
    let any = random.below(LOAD_BYTES as u64) as usize;
    let short = length.saturating_sub(1);
    random.choose(&[length, short, length + 1, 0, LOAD_BYTES - 1, LOAD_BYTES, any])
}

fn length(seed: u32, count: u32) -> usize {
    lines(seed, count).map_or(0, |lines| lines.len())
}

/// A load that must be answered so, and the output after it.
fn expect(due: i64, seed: u32, count: u32, room: usize) -> Result<Vec<u8>, String> {
    let mut lent = Lent::new(&[], room, [0; 8]);
    match lent.load(seed, count)? {
        answer if answer == due => Ok(lent.output().to_vec()),
        answer => Err(format!(
            "Load of seed {seed}, count {count} and room {room}: both answer {answer}, expected {due}"
        )),
    }
}

/// Sends so many lines to a fresh session, which has room for them: each gives the next label.
fn send(lines: &[u8], count: u32) -> Result<(), String> {
    let mut lent = Lent::new(&image(&Session::open()), 0, [0; 8]);
    let mut at = 0;
    for label in 1..=count {
        lent.expect(i64::from(label), Entry::Call, lines, at)?;
        at += line_at(lines, at).len() + 1;
    }
    if at == lines.len() {
        Ok(())
    } else {
        Err(format!("{count} lines end at {at}, not {}", lines.len()))
    }
}
