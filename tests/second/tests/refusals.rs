//! Every refusal, the order of the tests, and what a refusal leaves alone.

mod common;

use common::Desk;
use second::{host, image, line_at, Session, IMAGE_BYTES};

/// Two nodes; at node 2 a unit of two maps and a unit of a sum; a map in the top
/// stream; label 3 claimed.
fn busy() -> Desk {
    Desk::after(&[
        "call=add value=5",
        "call=add value=7",
        "call=sum start=0 to=",
        "call=map a=3 b=4 to=2",
        "call=map a=3 b=4 to=1",
        "call=sum start=10 to=1,2,9",
        "call=map a=1 b=0 to=1",
        "step=admit",
        "step=admit",
        "step=admit",
        "step=finish at=2",
        "claim=3",
        "step=admit",
        "step=admit",
        "step=admit",
        "step=join at=2 unit=1",
    ])
}

#[test]
fn lines_10_of_calls() {
    let mut desk = busy();
    for line in [
        "",
        " ",
        "call",
        "call=",
        "call=add",
        "call=add value=",
        "call=add value=05",
        "call=add value=00",
        "call=add value=4294967296",
        "call=add value=42949672950",
        "call=add value=99999999999999999999999999",
        "call=add value=-1",
        "call=add value=+1",
        "call=add value=5 ",
        "call=add value=5\r",
        "call=add value=5 to=",
        "call=add  value=5",
        " call=add value=5",
        "call=add value=5,6",
        "call=add value=0x5",
        "Call=add value=5",
        "call=adds value=5",
        "call=map a=3 b=4",
        "call=map a=3 b=4 to",
        "call=map b=4 a=3 to=1",
        "call=map a=3 to=1",
        "call=map a=3 b=4 to=1,",
        "call=map a=3 b=4 to=,1",
        "call=map a=3 b=4 to=1,,2",
        "call=map a=3 b=4 to=1, 2",
        "call=map a=3 b=4 to=01",
        "call=map a=3 b=4 to= ",
        "call=map a=3 b=4 to=1 to=2",
        "call=unmap",
        "call=unmap a=3 b=4",
        "call=unmap a=3 b=4 to",
        "call=unmap b=4 a=3 to=1",
        "call=unmap a=3 to=1",
        "call=unmap b=4 to=1",
        "call=unmap key=2 to=1",
        "call=unmap a=3 b=4 to=1 ",
        "call=unmap a=3 b=4 to=1\r",
        "call=unmap a=3  b=4 to=1",
        "call=unmap a=03 b=4 to=1",
        "call=unmap a=-3 b=4 to=1",
        "call=unmap a= b=4 to=1",
        "call=unmap a=4294967296 b=4 to=1",
        "call=unmap a=4294967297 b=4 to=1",
        "call=unmap a=3 b=4294967296 to=1",
        "call=unmap a=3 b=4 key=2 to=1",
        "call=unmaps a=3 b=4 to=1",
        "call=Unmap a=3 b=4 to=1",
        "call=un map a=3 b=4 to=1",
        "call=unlink a=3 b=4 to=1",
        "call=link to=1",
        "call=link key=2",
        "call=link key= to=1",
        "call=sum to=1",
        "call=top start=-1 to=1",
        "call=top start=+1 to=1",
        "call=top start=-2147483648 to=1",
        "call=top start=4294967296 to=1",
        "call=near key=2 to=1",
        "call=near start=0 key=2 to=1",
        "call=drain",
        "call=sum start=0 to=65,",
        "call=sum start=0 to=4294967296",
    ] {
        desk.refuses(10, line);
    }
}

#[test]
fn lines_10_of_steps_and_claims() {
    let mut desk = busy();
    for line in [
        "step=",
        "step=admit ",
        "step=admit at=2",
        "step=drain at=2",
        "step=realise",
        "step=realise at=",
        "step=realise at=02",
        "step=realise at=2,1",
        "step=realise at=2 unit=1",
        "step=join at=2",
        "step=join unit=1 at=2",
        "step=split at=2 unit=1",
        "step=split at=2 after=1 unit=1",
        "step=swap at=2 unit=4294967296",
        "step=fuse at=2 unit=1 after=1",
        "step=walk at=2",
        "step=finish at=4294967296",
        "claim=",
        "claim=04",
        "claim=4 ",
        "claim=4,5",
        "claim=4294967296",
    ] {
        desk.refuses(10, line);
    }
}

#[test]
fn each_entry_takes_its_own_forms_only() {
    let mut session = busy().session;
    let before = session.clone();
    let (mut tally, mut out) = ([0; 8], [7; 64]);
    for line in ["step=drain", "claim=1"] {
        assert_eq!(session.call(line.as_bytes()), -10);
    }
    for line in ["call=add value=1", "claim=1"] {
        assert_eq!(session.step(line.as_bytes(), &mut tally), -10);
    }
    for line in ["call=add value=1", "step=drain"] {
        assert_eq!(session.claim(line.as_bytes(), &mut out), -10);
    }
    assert_eq!((session, tally, out), (before, [0; 8], [7; 64]));
}

#[test]
fn the_whole_line_is_read_before_11_and_12() {
    let mut desk = busy();
    desk.refuses(11, "call=link key=0 to=1");
    desk.refuses(11, "call=unlink key=65 to=2,2");
    desk.refuses(11, "call=near key=4294967295 start=0 to=1");
    desk.refuses(11, "call=sum start=0 to=0");
    desk.refuses(11, "call=sum start=0 to=2,2,65");
    desk.refuses(11, "call=sum start=0 to=256");
    desk.refuses(10, "call=link key=65 to=1,");
    desk.refuses(12, "call=sum start=0 to=2,2");
    desk.refuses(11, "step=move at=0");
    desk.refuses(11, "step=join at=65 unit=0");
    desk.refuses(11, "step=split at=257 unit=1 after=1");
}

#[test]
fn calls_13_14_15() {
    let mut desk = Desk::after(&["call=add value=1"; 64]);
    desk.refuses(13, "call=add value=1");
    desk.refuses(14, "call=sum start=0 to=");
    desk.refuses(12, "call=sum start=0 to=2,1");
    let mut desk = Desk::new();
    desk.session.last = 65_534;
    assert_eq!(desk.line("call=add value=1"), 65_535);
    desk.refuses(15, "call=add value=1");
    desk.refuses(15, "call=sum start=0 to=");
    desk.refuses(12, "call=sum start=0 to=2,1");
    desk.session.last = 65_472;
    desk.all(&["call=add value=1"; 63]);
    assert_eq!(desk.session.last, 65_535);
    desk.refuses(13, "call=add value=1");
    desk.refuses(14, "call=sum start=0 to=");
}

/// An a that no map undoes, and one that some map does.
const EVEN_AND_ODD: [(u32, u32); 5] = [
    (0, 1),
    (2, 3),
    (2_147_483_648, 2_147_483_649),
    (4_294_967_294, 4_294_967_295),
    (2_147_483_646, 2_147_483_647),
];

#[test]
fn unmaps_40() {
    let mut desk = busy();
    for (even, odd) in EVEN_AND_ODD {
        for to in ["", "1", "1,2", "64", "1,2,3,4,5,6,7,8"] {
            for b in [0, 1, 4, u32::MAX] {
                desk.refuses(40, &format!("call=unmap a={even} b={b} to={to}"));
                let served = format!("call=unmap a={odd} b={b} to={to}");
                assert_eq!(desk.clone().line(&served), 8);
                let map = format!("call=map a={even} b={b} to={to}");
                assert_eq!(desk.clone().line(&map), 8); // a map need have no inverse
            }
        }
    }
}

#[test]
fn unmaps_10_11_and_12_before_40() {
    let mut desk = busy();
    for (even, odd) in EVEN_AND_ODD {
        for a in [even, odd] {
            desk.refuses(10, &format!("call=unmap a={a} b=4 to=1,"));
            desk.refuses(10, &format!("call=unmap a={a} b=04 to=1"));
            desk.refuses(10, &format!("call=unmap a={a} b=4 to=2,2,65 "));
            for to in ["0", "65", "2,2,65", "1,2,3,4,5,6,7,8,65", "4294967295"] {
                desk.refuses(11, &format!("call=unmap a={a} b=4 to={to}"));
            }
            for to in ["2,2", "2,1", "1,2,3,4,5,6,7,8,9", "1,64,63"] {
                desk.refuses(12, &format!("call=unmap a={a} b=4 to={to}"));
            }
        }
    }
}

#[test]
fn unmaps_40_before_14_and_15() {
    let (even, odd) = ("call=unmap a=2 b=4 to=1", "call=unmap a=3 b=4 to=1");
    let mut desk = Desk::after(&["call=add value=1"; 64]);
    desk.refuses(40, even);
    desk.refuses(14, odd);
    desk.refuses(12, "call=unmap a=2 b=4 to=2,1");
    desk.all(&["step=drain"]);
    desk.refuses(40, even);
    desk.refuses(14, odd);
    desk.session.last = 65_535; // 14 and 15
    desk.refuses(40, even);
    desk.refuses(14, odd);
    desk.all(&["claim=1"]);
    desk.refuses(40, even);
    desk.refuses(15, odd);
    desk.refuses(11, "call=unmap a=2 b=4 to=65");
}

/// 13 is about adds only, and 40 about unmaps.
#[test]
fn an_unmap_after_64_adds() {
    let mut desk = Desk::after(&["call=add value=1"; 64]);
    desk.all(&["step=drain", "claim=1"]);
    desk.refuses(13, "call=add value=1");
    desk.refuses(40, "call=unmap a=2 b=4 to=1");
    assert_eq!(desk.line("call=unmap a=3 b=4 to=1"), 65);
}

#[test]
fn steps_20_21_22() {
    let mut desk = busy();
    for step in ["realise", "move", "finish"] {
        desk.refuses(20, &format!("step={step} at=3"));
        desk.refuses(21, &format!("step={step} at=1"));
    }
    for step in ["join", "swap", "fuse"] {
        desk.refuses(20, &format!("step={step} at=3 unit=0"));
        desk.refuses(21, &format!("step={step} at=1 unit=1"));
        desk.refuses(21, &format!("step={step} at=2 unit=0"));
        desk.refuses(21, &format!("step={step} at=2 unit=2"));
        desk.refuses(21, &format!("step={step} at=2 unit=4294967295"));
    }
    desk.refuses(20, "step=split at=64 unit=1 after=1");
    desk.refuses(21, "step=split at=2 unit=3 after=1");
    desk.refuses(21, "step=split at=2 unit=0 after=0");
    for after in ["0", "2", "3", "4294967295"] {
        desk.refuses(22, &format!("step=split at=2 unit=1 after={after}"));
    }
    desk.refuses(22, "step=split at=2 unit=2 after=1");
    desk.refuses(22, "step=swap at=2 unit=1"); // a unit of two operations
    desk.refuses(22, "step=fuse at=2 unit=1");
    desk.refuses(22, "step=move at=2"); // its first map targets node 2
    desk.refuses(22, "step=finish at=2"); // both maps have targets
    desk.all(&["step=realise at=2"]);
    desk.refuses(22, "step=realise at=2");
    desk.all(&["step=finish at=2", "step=move at=2"]);
    desk.refuses(22, "step=move at=1"); // targeted, and last
    desk.all(&["step=realise at=1"]);
    desk.refuses(22, "step=move at=1"); // last
    desk.all(&["step=drain"]);
    desk.refuses(21, "step=admit");
    desk.all(&["step=drain"]);
}

/// Each call but add, without its targets, and whether it folds.
const CALLS: [(&str, bool); 8] = [
    ("map a=1 b=0", false),
    ("unmap a=3 b=4", false),
    ("link key=1", false),
    ("unlink key=1", false),
    ("sum start=0", true),
    ("top start=0", true),
    ("pick start=0", true),
    ("near key=1 start=0", true),
];

/// One operation at the first of so many stations. More than one step is allowed only
/// where it has no targets and a station follows.
#[test]
fn realise_move_and_finish_are_allowed_exactly() {
    let cases: [(usize, &str, &[&str]); 8] = [
        (2, "", &["move", "finish"]),
        (2, "1", &["move"]),
        (2, "2", &["realise"]),
        (2, "1,2", &["realise"]),
        (1, "", &["finish"]),
        (1, "1", &["realise"]),
        (1, "2", &["finish"]),
        (1, "1,2", &["realise"]),
    ];
    for (call, _) in CALLS {
        for (nodes, to, allowed) in cases {
            let mut desk = Desk::after(&vec!["call=add value=5"; nodes]);
            desk.all(&["step=drain", &format!("call={call} to={to}"), "step=admit"]);
            for step in ["realise", "move", "finish"] {
                let answer = desk.clone().line(&format!("step={step} at={nodes}"));
                let expected = if allowed.contains(&step) { 0 } else { -22 };
                assert_eq!(answer, expected, "{step}, {call} to={to}, {nodes} nodes");
            }
        }
    }
}

#[test]
fn swap_and_fuse_are_allowed_exactly() {
    let targets = ["", "1", "2", "1,2"];
    for (first, first_folds) in CALLS {
        for (second, second_folds) in CALLS {
            for t1 in targets {
                for t2 in targets {
                    let mut desk = Desk::after(&["call=add value=5", "step=drain"]);
                    desk.all(&[&format!("call={first} to={t1}"), "step=admit"]);
                    desk.all(&[&format!("call={second} to={t2}"), "step=admit"]);
                    let mut fuse = desk.clone();
                    let shared = t1
                        .split(',')
                        .any(|k| !k.is_empty() && t2.split(',').any(|l| k == l));
                    let swaps = !shared || (first_folds && second_folds);
                    let answer = desk.line("step=swap at=1 unit=1");
                    assert_eq!(answer, if swaps { 0 } else { -22 });
                    let maps = [first, second].iter().all(|call| call.contains("map"));
                    let answer = fuse.line("step=fuse at=1 unit=1");
                    assert_eq!(answer, if maps && t1 == t2 { 0 } else { -22 });
                }
            }
        }
    }
}

#[test]
fn claims_30_31_32_33() {
    let mut desk = busy();
    desk.refuses(30, "claim=0");
    desk.refuses(30, "claim=8");
    desk.refuses(30, "claim=65537");
    desk.refuses(30, "claim=4294967295");
    desk.refuses(31, "claim=4");
    desk.refuses(31, "claim=7"); // in the top stream
    desk.refuses(32, "claim=3");
    desk.all(&["step=drain"]);
    let line = b"label=6 value=54 left=9\n";
    let mut short = [b'#'; 23];
    let before = desk.session.clone();
    assert_eq!(desk.session.claim(b"claim=6", &mut short), -33);
    assert_eq!((&desk.session, short), (&before, [b'#'; 23]));
    let mut long = [b'#'; 30];
    assert_eq!(desk.session.claim(b"claim=6", &mut long), 24);
    assert_eq!(&long[..24], line);
    assert_eq!(long[24..], [b'#'; 6]);
    desk.refuses(32, "claim=6");
    assert_eq!(desk.session.claim(b"claim=1", &mut [0; 21]), -33);
    assert_eq!(desk.session.claim(b"claim=1", &mut [0; 22]), 22);
}

#[test]
fn listing_33() {
    let desk = busy();
    let listing = desk.listing();
    let mut short = vec![b'#'; listing.len() - 1];
    assert_eq!(desk.session.list(&mut short), -33);
    assert!(short.iter().all(|&byte| byte == b'#'));
    let mut long = vec![b'#'; listing.len() + 3];
    assert_eq!(desk.session.list(&mut long), listing.len() as i64);
    assert_eq!(&long[..listing.len()], listing.as_bytes());
    assert_eq!(&long[listing.len()..], b"###");
    assert_eq!(Session::open().list(&mut []), -33);
}

#[test]
fn counts_rise_by_kind_and_rest() {
    let mut desk = Desk::after(&["call=add value=1", "call=add value=2", "step=drain"]);
    assert_eq!(desk.tally, [2, 0, 0, 0, 0, 0, 0, 0]);
    for _ in 0..4 {
        desk.all(&["call=map a=1 b=1 to=1", "step=admit"]);
    }
    desk.all(&["step=fuse at=2 unit=1", "step=join at=2 unit=2"]);
    desk.all(&["step=split at=2 unit=2 after=1", "step=join at=2 unit=2"]);
    desk.all(&[
        "call=sum start=0 to=2",
        "step=admit",
        "step=split at=2 unit=2 after=1",
    ]);
    desk.all(&["step=swap at=2 unit=3"]);
    assert_eq!(desk.tally, [7, 0, 0, 0, 2, 2, 1, 1]);
    // Three units to move, one sum to realise here, three maps there, four to finish.
    desk.all(&["step=drain"]);
    assert_eq!(desk.tally, [7, 4, 3, 4, 2, 2, 1, 1]);
    desk.tally = [u32::MAX - 1; 8];
    desk.all(&[
        "call=sum start=0 to=1,2",
        "call=sum start=0 to=1,2",
        "step=drain",
    ]);
    let most = u32::MAX;
    let less = most - 1;
    assert_eq!(desk.tally, [most, most, most, most, less, less, less, less]);
}

#[test]
fn lines_stand_in_the_middle_of_a_frame() {
    let frame = b"call=add value=5\n\nclaim=1";
    assert_eq!(line_at(frame, 0), b"call=add value=5");
    assert_eq!(line_at(frame, 5), b"add value=5");
    assert_eq!(line_at(frame, 16), b"");
    assert_eq!(line_at(frame, 17), b"");
    assert_eq!(line_at(frame, 18), b"claim=1");
    assert_eq!(line_at(frame, 25), b"");
    assert_eq!(line_at(frame, 26), b"");
    assert_eq!(line_at(frame, usize::MAX), b"");
    assert_eq!(line_at(b"", 0), b"");
}

#[test]
fn hosts_1_and_2() {
    let mut image = image(&busy().session);
    let frame = b"call=sum start=0 to=65\nstep=move at=9\nclaim=9\n";
    let (mut tally, mut out) = ([3; 8], [b'#'; 8]);
    let mut short = image[..IMAGE_BYTES - 1].to_vec();
    assert_eq!(host::open(&mut short), -1);
    assert_eq!(host::call(&mut short, frame, 0), -1);
    assert_eq!(host::step(&mut short, frame, 23, &mut tally), -1);
    assert_eq!(host::claim(&mut short, frame, 38, &mut out), -1);
    assert_eq!(host::list(&short, &mut out), -1);
    assert_eq!(host::open(&mut [1; IMAGE_BYTES + 1]), -1);
    assert_eq!(short, image[..IMAGE_BYTES - 1]);
    image[0] = 2;
    let damaged = image;
    assert_eq!(host::call(&mut image, frame, 0), -2);
    assert_eq!(host::step(&mut image, frame, 23, &mut tally), -2);
    assert_eq!(host::claim(&mut image, frame, 38, &mut out), -2);
    assert_eq!(host::list(&image, &mut out), -2);
    assert_eq!((image, tally, out), (damaged, [3; 8], [b'#'; 8]));
    image[0] = 3;
    assert_eq!(host::call(&mut image, frame, 0), -11);
    assert_eq!(host::step(&mut image, frame, 23, &mut tally), -20);
    assert_eq!(host::claim(&mut image, frame, 38, &mut out), -30);
    assert_eq!(host::list(&image, &mut out), -33);
    assert_eq!(host::open(&mut image), 0);
    assert_eq!(image, second::image(&Session::open()));
}

#[test]
fn hosts_1_and_2_before_40() {
    let mut bytes = image(&busy().session);
    let before = bytes;
    let frame = b"call=unmap a=2 b=4 to=1";
    assert_eq!(host::call(&mut bytes[1..], frame, 0), -1);
    bytes[0] = 4;
    assert_eq!(host::call(&mut bytes, frame, 0), -2);
    bytes[0] = 3;
    assert_eq!(host::call(&mut bytes, frame, 0), -40);
    assert_eq!(bytes, before);
}
