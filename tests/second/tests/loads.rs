//! The load of S-14: its lines, its two refusals, and the tool that prints it.

mod common;

use std::ffi::OsStr;
use std::process::{Command, Output};

use common::Desk;
use second::load::lines;
use second::print::call_line;
use second::random::Scribe;
use second::{host, read_call, Act, Call, Refusal, Session, To};

/// Seeds that tests go through: many small ones, and some at the edges of 32 bits.
fn seeds() -> impl Iterator<Item = u32> {
    let edges = [65_535, 65_536, 2_147_483_647, 2_147_483_648, u32::MAX];
    (0..3000).chain(edges)
}

/// The load as text.
fn text(seed: u32, count: u32) -> String {
    let lines = lines(seed, count).expect("a count of at most 64");
    String::from_utf8(lines).expect("lines are text")
}

/// "From seed 0 the first draw is 15,470 and the call is pick." Seed 634,785,765 has 0 as
/// its first state, so that its add's value is the first draw from seed 0.
#[test]
fn the_first_draw_from_seed_0() {
    assert!(text(0, 1).starts_with("call=pick "));
    assert_eq!(text(634_785_765, 1), "call=add value=15470\n");
}

/// The draws from seed 0 are 15470 (6: pick), 18256, 53708 (5 keys), 43769, 25170, 40750,
/// 22526, 41945; 33277 (5: top), 38128, 52214 (5 keys), 48337, 40227, 58006, 442, 33734;
/// 46381 (5: top), 20425, 25167 (3 keys), 42249, 34396, 35501.
#[test]
fn seed_0_by_hand() {
    let expected = "call=pick start=18256 to=19,26,47,58,63\n\
                    call=top start=38128 to=7,18,23,36,59\n\
                    call=top start=20425 to=10,29,46\n";
    assert_eq!(text(0, 3), expected);
}

#[test]
fn seed_1_by_hand() {
    let expected = "call=add value=24200\n\
                    call=pick start=46195 to=\n\
                    call=add value=50774\n";
    assert_eq!(text(1, 3), expected);
}

#[test]
fn seed_2_by_hand() {
    let expected = "call=map a=30144 b=12383 to=3,14,48\n\
                    call=unlink key=53 to=5\n\
                    call=add value=37195\n";
    assert_eq!(text(2, 3), expected);
}

/// The sum draws eight keys, 49 twice.
#[test]
fn seed_86_by_hand() {
    let expected = "call=near key=64 start=46166 to=10,30,32,48,53,58,63\n\
                    call=sum start=40887 to=6,18,21,22,39,43,49\n\
                    call=link key=8 to=5,20,24,30,41,50,56,57\n";
    assert_eq!(text(86, 3), expected);
}

#[test]
fn the_count_is_the_callers() {
    for seed in seeds() {
        for count in [0, 1, 63, 64] {
            let text = text(seed, count);
            assert_eq!(text.split_inclusive('\n').count(), count as usize);
            assert!(text.is_empty() || text.ends_with('\n'));
        }
        for count in [65, 66, 128, 65_536 + 64, u32::MAX] {
            assert_eq!(lines(seed, count), Err(Refusal::LoadCount));
        }
    }
}

#[test]
fn a_longer_load_begins_with_a_shorter_one() {
    for seed in seeds() {
        let whole = text(seed, 64);
        for count in [0, 1, 2, 31, 63] {
            assert!(whole.starts_with(&text(seed, count)), "{seed} {count}");
        }
    }
}

/// Which of document 01's eight kinds a call is, and its listed targets.
fn kind_and_targets(call: &Call) -> (usize, &[u8]) {
    let Call::Visit { act, to } = call else {
        assert!(matches!(call, Call::Add { .. }), "{call:?}");
        return (0, &[]);
    };
    let To::Keys(targets) = to else {
        panic!("{call:?}")
    };
    let kind = match act {
        Act::Map { .. } => 1,
        Act::Link { .. } => 2,
        Act::Unlink { .. } => 3,
        Act::Sum { .. } => 4,
        Act::Top { .. } => 5,
        Act::Pick { .. } => 6,
        Act::Near { .. } => 7,
    };
    (kind, targets)
}

/// "Every line made has an accepted form." All kinds, list lengths and keys occur.
#[test]
fn every_line_is_read_back() {
    let (mut kinds, mut lengths, mut keys) = ([0; 8], [0; 9], [0; 65]);
    for seed in seeds() {
        for line in text(seed, 64).lines() {
            let call = read_call(line.as_bytes()).expect(line);
            assert_eq!(call_line(&call), format!("{line}\n"));
            let (kind, targets) = kind_and_targets(&call);
            kinds[kind] += 1;
            lengths[targets.len()] += 1;
            for &key in targets {
                keys[usize::from(key)] += 1;
            }
        }
    }
    assert!(kinds.iter().all(|&times| times > 0), "{kinds:?}");
    assert!(lengths.iter().all(|&times| times > 0), "{lengths:?}");
    assert!(keys[1..].iter().all(|&times| times > 0), "{keys:?}");
}

/// A fresh session has room for 64 calls, whatever they are.
#[test]
fn a_fresh_session_accepts_a_whole_load() {
    for seed in seeds() {
        let mut desk = Desk::new();
        for (label, line) in (1..).zip(text(seed, 64).lines()) {
            assert_eq!(desk.line(line), label, "{seed}: {line}");
        }
    }
}

/// A near has the longest line: 55 bytes and its newline.
#[test]
fn the_longest_line() {
    let longest = "call=near key=62 start=18055 to=13,24,25,31,37,38,42,59\n";
    assert_eq!(text(1762, 1), longest);
    assert_eq!(longest.len(), 56);
    for seed in seeds() {
        let text = text(seed, 64);
        assert!(text.split_inclusive('\n').all(|line| line.len() <= 56));
    }
}

/// Calls from any lines are written as they were read, unmaps and `to=all` too.
#[test]
fn a_call_is_written_as_it_was_read() {
    let mut scribe = Scribe::new(14);
    let session = Session::open();
    let mut read = 0;
    for _ in 0..5000 {
        let line = scribe.call_line(&session);
        if let Ok(call) = read_call(line.as_bytes()) {
            assert_eq!(call_line(&call), format!("{line}\n"));
            read += 1;
        }
    }
    assert!(read > 1000, "{read}");
    for line in [
        "call=unmap a=4294967295 b=0 to=",
        "call=unmap a=3 b=4 to=all",
        "call=near key=64 start=4294967295 to=all",
    ] {
        let call = read_call(line.as_bytes()).expect(line);
        assert_eq!(call_line(&call), format!("{line}\n"));
    }
}

/// Gives the load so much room in the middle of a larger buffer, and checks that nothing
/// beside the room changes.
fn load_in(seed: u32, count: u32, room: usize) -> (i64, Vec<u8>) {
    const MARGIN: usize = 16;
    let mut bytes = vec![0xA5; MARGIN + room + MARGIN];
    let answer = host::load(seed, count, &mut bytes[MARGIN..][..room]);
    let out = bytes[MARGIN..][..room].to_vec();
    bytes[MARGIN..][..room].fill(0xA5);
    assert!(bytes.iter().all(|&byte| byte == 0xA5));
    (answer, out)
}

#[test]
fn room_for_the_lines() {
    for seed in seeds().step_by(100) {
        for count in [0, 1, 63, 64] {
            let lines = lines(seed, count).expect("a count of at most 64");
            for more in [0, 1, 100] {
                let (answer, out) = load_in(seed, count, lines.len() + more);
                assert_eq!(answer, lines.len() as i64);
                assert_eq!(out[..lines.len()], lines);
                assert!(out[lines.len()..].iter().all(|&byte| byte == 0xA5));
            }
        }
    }
}

/// "Then with 47 an output shorter than the lines."
#[test]
fn refusal_47() {
    for seed in seeds().step_by(100) {
        for count in [1, 63, 64] {
            let length = text(seed, count).len();
            for room in [0, 1, length / 2, length - 1] {
                let (answer, out) = load_in(seed, count, room);
                assert_eq!(answer, -47);
                assert!(out.iter().all(|&byte| byte == 0xA5));
            }
        }
    }
}

/// 46 comes first, and needs no output to be told.
#[test]
fn refusal_46() {
    for seed in seeds().step_by(100) {
        for count in [65, 320, u32::MAX] {
            for room in [0, 1, 56 * 64, 10_000] {
                let (answer, out) = load_in(seed, count, room);
                assert_eq!(answer, -46);
                assert!(out.iter().all(|&byte| byte == 0xA5));
            }
        }
    }
}

fn tool<T: AsRef<OsStr>>(arguments: &[T]) -> Output {
    let mut command = Command::new(env!("CARGO_BIN_EXE_tool"));
    command.args(arguments).output().expect("the tool runs")
}

#[test]
fn the_tool_prints_a_load() {
    for (seed, count) in [(0, 3), (1, 0), (86, 64), (u32::MAX, 1)] {
        let output = tool(&["load", &seed.to_string(), &count.to_string()]);
        assert_eq!(output.status.code(), Some(0));
        assert_eq!(output.stdout, text(seed, count).as_bytes());
        assert!(output.stderr.is_empty());
    }
}

#[test]
fn the_tool_prints_a_refusal() {
    for count in ["65", "4294967295"] {
        let output = tool(&["load", "0", count]);
        assert_eq!(output.status.code(), Some(1));
        assert_eq!(output.stdout, b"refused=46\n");
        assert!(output.stderr.is_empty());
    }
}

fn assert_usage(output: Output) {
    assert_eq!(output.status.code(), Some(2));
    assert!(output.stdout.is_empty());
    let usage = "usage: tool load SEED COUNT\n       tool page\n       tool nodes\n";
    assert_eq!(output.stderr, usage.as_bytes());
}

#[test]
fn the_tool_prints_its_usage() {
    let others: [&[&str]; 8] = [
        &[],
        &["load"],
        &["load", "0"],
        &["load", "0", "1", "2"],
        &["0", "1"],
        &["loads", "0", "1"],
        &["Load", "0", "1"],
        &["", "0", "1"],
    ];
    for arguments in others {
        assert_usage(tool(arguments));
    }
    let long = "1".repeat(300);
    for number in [
        "",
        "00",
        "01",
        "+1",
        "-1",
        " 1",
        "1 ",
        "1\n",
        "1,000",
        "0x1",
        "1.0",
        "x",
        "4294967296",
        "18446744073709551617",
        &long,
    ] {
        assert_usage(tool(&["load", number, "1"]));
        assert_usage(tool(&["load", "1", number]));
        assert_usage(tool(&["load", number, "65"]));
    }
}

/// Bytes that are no text are no number either.
#[cfg(unix)]
#[test]
fn the_tool_takes_any_bytes() {
    use std::os::unix::ffi::OsStrExt;
    let other = OsStr::from_bytes(b"1\xFF");
    let (load, one) = (OsStr::new("load"), OsStr::new("1"));
    assert_usage(tool(&[load, other, one]));
    assert_usage(tool(&[load, one, other]));
    assert_usage(tool(&[other, one, one]));
}
