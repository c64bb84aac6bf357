//! Pages: each is written by both, read back by both and compared, and is read back as the lines that the
//! listing has for its nodes.

use hosts::{Entry, LISTING_BYTES, NODES_BYTES, PAGE_BYTES, PRODUCT};
use second::page::{lines, page_of, LINE_BYTES};
use second::random::{self, session, Random};
use second::samples::rich;
use second::{image, Node, Session};

use crate::fixed::greatest;
use crate::lent::Lent;

/// The nodes of `rich`: how they are printed, and how they are listed.
const RICH: [&str; 3] = [" 3        258", " 2          7 2,64", " 1          5 2,64"];
const RICH_LINES: &str =
    "key=3 value=258 links=\nkey=2 value=7 links=2,64\nkey=1 value=5 links=2,64\n";

/// Three nodes with the widest fields, with narrow ones, and with no links; in any order.
const THREE: [&str; 3] = [
    " 7         19 5,64,5",
    "64 4294967295 10,20,30,40,50,60,10,20",
    " 1          0",
];
const THREE_LINES: &str = "key=7 value=19 links=5,64,5\n\
    key=64 value=4294967295 links=10,20,30,40,50,60,10,20\nkey=1 value=0 links=\n";

/// The pages of two sessions, by hand: one with calls that wait, and the fresh one.
pub fn by_hand() -> Result<(), String> {
    for (image, page, lines) in [
        (rich(), sheet("3", &RICH), RICH_LINES),
        (image(&Session::open()), sheet("0", &[]), ""),
    ] {
        let mut lent = Lent::new(&image, page.len(), [5; 8]);
        lent.expect(page.len() as i64, Entry::Page, &[], 0)?;
        if lent.output() != page {
            let page = lent.output().escape_ascii();
            return Err(format!("both write '{page}'"));
        }
        expect_lines(&page, lines)?;
    }
    Ok(())
}

/// Pages that are read, and as what: at the limits, and with what no session has.
pub fn read() -> Result<(), String> {
    expect_lines(&sheet("3", &THREE), THREE_LINES)?;
    for (row, line) in [
        ("64          1 64", "key=64 value=1 links=64\n"),
        (" 9          1 9", "key=9 value=1 links=9\n"),
        ("10 1000000000 10", "key=10 value=1000000000 links=10\n"),
        (" 1 4294967295", "key=1 value=4294967295 links=\n"),
        (" 1  999999999 1", "key=1 value=999999999 links=1\n"),
        (
            " 1          0 1,2,3,4,5,6,7,8",
            "key=1 value=0 links=1,2,3,4,5,6,7,8\n",
        ),
        (
            " 1          0 64,64,64,64,64,64,64,64",
            "key=1 value=0 links=64,64,64,64,64,64,64,64\n",
        ),
        (" 1          0 64,9,10,1", "key=1 value=0 links=64,9,10,1\n"),
    ] {
        expect_lines(&sheet("1", &[row]), line)?;
    }
    let rising: Vec<Node> = (1..=64).map(|key| node(key, u32::from(key))).collect();
    let listed = |node: &Node| format!("key={} value={} links=\n", node.key, node.value);
    let lines: String = rising.iter().map(listed).collect();
    expect_lines(page_of(rising.iter()).as_bytes(), &lines)
}

/// Pages that are nearly read, by what is wrong with them: 35 comes before 34.
pub fn refused() -> impl Iterator<Item = (&'static str, Result<(), String>)> {
    let pages = heads().into_iter().chain(rows()).chain(whole_pages());
    pages.map(|(what, page)| (what, expect_refused(&page)))
}

type Named = (&'static str, Vec<u8>);

fn heads() -> Vec<Named> {
    let counts = [
        ("a count one too small", "2"),
        ("a count one too great", "4"),
        ("a count of 0", "0"),
        ("no count", ""),
        ("a count with a leading zero", "03"),
        ("a count with a sign", "+3"),
        ("a blank inside the count", "0 3"),
        ("a count above 32 bits", "4294967299"),
        ("a count above 64 bits", "18446744073709551619"),
        ("a count of 32 digits", "00000000000000000000000000000003"),
        ("a blank after the count", "3 "),
        ("a tab before the count", "\t3"),
    ];
    let words = [
        ("a count set left", "nodes 3"),
        ("another word", "Nodes                               3"),
        (
            "a head one column to the right",
            " nodes                              3",
        ),
        ("a listing's head", "nodes=                              3"),
    ];
    let counts = counts.map(|(what, count)| (what, sheet(count, &THREE)));
    let words = words.map(|(what, head)| (what, [row(head), body(&THREE)].concat()));
    counts.into_iter().chain(words).collect()
}

/// Each in the middle of two good lines.
fn rows() -> Vec<Named> {
    let rows = [
        ("key 0", " 0          5 1"),
        ("key 00", "00          5 1"),
        ("key 65", "65          5 1"),
        ("key 99", "99          5 1"),
        ("key 07", "07          5 1"),
        ("no key", "            5 1"),
        ("a key set left", "9           5 1"),
        ("a key of letters", " x          5 1"),
        ("a key twice", " 7          5 1"),
        ("the next key", " 1          5 1"),
        ("a value above its limit", " 9 4294967296 1"),
        ("a value far above its limit", " 9 9999999999 1"),
        ("a value of eleven digits", " 9 42949672951"),
        ("a value with a leading zero", " 9         05 1"),
        ("a value of zeros", " 9 0000000000 1"),
        ("no value", " 9            1"),
        ("a value set left", " 9 5          1"),
        ("a value one column left", " 9         5  1"),
        ("a value with a sign", " 9         +5 1"),
        ("a blank inside the value", " 9        1 5 1"),
        ("a comma in the value", " 9      1,500 1"),
        ("nine links", " 9          5 1,2,3,4,5,6,7,8,9"),
        ("nine links to one", " 9          5 1,1,1,1,1,1,1,1,1"),
        ("link 0", " 9          5 0"),
        ("link 65", " 9          5 64,65"),
        ("link 100", " 9          5 100"),
        ("a link above 32 bits", " 9          5 4294967297"),
        ("link 07", " 9          5 07"),
        ("a comma at the start", " 9          5 ,1"),
        ("a comma at the end", " 9          5 1,"),
        ("a comma alone", " 9          5 ,"),
        ("two commas", " 9          5 1,,2"),
        ("a blank inside the links", " 9          5 1, 2"),
        ("a blank inside a link", " 9          5 6 4"),
        ("links without a comma", " 9          5 1 2"),
        ("links one column to the right", " 9          5  1"),
        ("links set right", " 9          5                       1"),
        ("letters among the links", " 9          5 1,x"),
        (
            "something after the links",
            " 9          5 1                     x",
        ),
        ("column 3", " 9,         5 1"),
        ("column 14", " 9          5,1"),
        ("a blank line", ""),
        ("a head again", "nodes                               3"),
        ("a listing's line", "key=9 value=5 links=1"),
        (
            "a carriage return",
            " 9          5 1                     \r",
        ),
        ("a tab", " 9\t         5 1"),
        ("a line too short", " 9          5 1\n"),
    ];
    let between = |(what, row)| (what, sheet("3", &[THREE[0], row, THREE[2]]));
    rows.map(between).to_vec()
}

fn whole_pages() -> Vec<Named> {
    let three = sheet("3", &THREE);
    let wider = |rows: usize| {
        let keys = (0..rows).map(|row| row % 64 + 1);
        let rows: Vec<String> = keys.map(|key| format!("{key:>2}          5")).collect();
        let rows: Vec<&str> = rows.iter().map(String::as_str).collect();
        sheet(&rows.len().to_string(), &rows)
    };
    let mut above = wider(65);
    above[65 * LINE_BYTES..][..2].copy_from_slice(b"65");
    vec![
        ("empty", Vec::new()),
        ("a newline alone", b"\n".to_vec()),
        ("its lines without a head", three[LINE_BYTES..].to_vec()),
        ("its head alone", three[..LINE_BYTES].to_vec()),
        ("its last line missing", three[..3 * LINE_BYTES].to_vec()),
        (
            "its last line twice",
            [&three, &three[3 * LINE_BYTES..]].concat(),
        ),
        ("twice", [&three[..], &three].concat()),
        ("its first byte missing", three[1..].to_vec()),
        ("what it is read as", THREE_LINES.into()),
        (
            "the first key again in the last line",
            sheet("3", &[THREE[0], THREE[1], " 7          0"]),
        ),
        ("65 nodes", wider(65)),
        ("65 nodes, the last with key 65", above),
        ("128 nodes", wider(128)),
        ("5,000 nodes", wider(5000)),
        ("an image", rich().to_vec()),
    ]
}

/// A page cut anywhere is none, and neither is one with a byte after it, whatever that is.
pub fn lengths() -> Result<(), String> {
    let page = sheet("3", &THREE);
    for length in 0..page.len() {
        expect_refused(&page[..length])?;
    }
    let mut longer = [&page[..], b"\n"].concat();
    for byte in 0..=255 {
        longer[page.len()] = byte;
        expect_refused(&longer)?;
    }
    Ok(())
}

/// One byte of a page is any other, at every place: both say which of these pages are read, and as what.
pub fn single_bytes() -> Result<(), String> {
    for rows in [&THREE[..], &RICH] {
        let page = sheet("3", rows);
        for place in 0..page.len() {
            let mut changed = page.clone();
            for byte in 0..=255 {
                changed[place] = byte;
                let mut lent = Lent::new(&changed, 4 * LINE_BYTES, [0; 8]);
                let told = lent.page_nodes();
                told.map_err(|error| format!("byte {place} is {byte}: {error}"))?;
            }
        }
    }
    Ok(())
}

/// A page and its nodes need room for all that is written, and no more is written. The greatest page has all
/// of its bytes; of its lines nine have a key of one digit.
pub fn room() -> Result<(), String> {
    let fresh = image(&Session::open());
    for (image, page_bytes, nodes_bytes) in [
        (image(&greatest()), PAGE_BYTES, NODES_BYTES - 9),
        (rich(), 4 * LINE_BYTES, RICH_LINES.len()),
        (fresh, LINE_BYTES, 0),
    ] {
        let mut lent = Lent::new(&image, page_bytes, [5; 8]);
        for room in rooms(page_bytes) {
            let due = due(page_bytes, room);
            lent.with_room(room).expect(due, Entry::Page, &[], 0)?;
        }
        lent.expect(page_bytes as i64, Entry::Page, &[], 0)?;
        for room in rooms(nodes_bytes) {
            expect(due(nodes_bytes, room), lent.output(), room)?;
        }
    }
    Ok(())
}

fn due(length: usize, room: usize) -> i64 {
    if room < length {
        -34
    } else {
        length as i64
    }
}

/// Some below the length, and each near it.
fn rooms(length: usize) -> impl Iterator<Item = usize> {
    let near = length.saturating_sub(20);
    (0..near).step_by(7).chain(near..length + 20)
}

/// An output of no byte may stand anywhere, and so may a page.
pub fn nowhere() -> Result<(), String> {
    let mut image = rich();
    let written = [&mut [][..], &mut image[..]]
        .map(|image| PRODUCT.serve(Entry::Page, image, (&[], 0), &mut [0; 8], &mut []));
    let pages = [
        vec![],
        sheet("0", &[]),
        sheet("3", &THREE),
        sheet("2", &THREE),
    ];
    let read = pages.map(|page| PRODUCT.page_nodes(&page, &mut []));
    if written == [-1, -34] && read == [-35, 0, -34, -35] {
        Ok(())
    } else {
        Err(format!("answers {written:?} and {read:?}"))
    }
}

/// The page of any session, or of an image with some bytes changed.
pub fn seeded(seed: u64) -> Result<(), String> {
    let random = &mut Random::new(seed);
    let mut bytes = image(&session::any(random));
    if random.once_in(3) {
        session::damage_image(random, &mut bytes);
    }
    returns(random, &Lent::new(&bytes, 0, [0; 8]))
}

/// The page of an image, with any room and with just enough, where the listing is not refused; it is read back
/// as the listing's lines for its nodes.
pub fn returns(random: &mut Random, lent: &Lent) -> Result<(), String> {
    let mut list = lent.with_room(LISTING_BYTES);
    let listed = list.serve(Entry::List, &[], 0)?;
    let listing = &list.output()[..listed.max(0) as usize];
    let lines = listing.split_inclusive(|&byte| byte == b'\n');
    let lines: Vec<&[u8]> = lines.filter(|line| line.starts_with(b"key=")).collect();
    let length = LINE_BYTES * (lines.len() + 1);
    let room = any_room(random, length, PAGE_BYTES);
    let mut any = lent.with_room(room);
    if listed < 0 {
        return any.expect(listed, Entry::Page, &[], 0);
    }
    any.serve(Entry::Page, &[], 0)?;
    let mut exact = lent.with_room(length);
    exact.expect(length as i64, Entry::Page, &[], 0)?;
    let page = exact.output();
    let lines = lines.concat();
    let room = any_room(random, lines.len(), NODES_BYTES);
    Lent::new(page, room, [0; 8]).page_nodes()?;
    if expect(lines.len() as i64, page, lines.len())? == lines {
        Ok(())
    } else {
        let page = page.escape_ascii();
        Err(format!("'{page}' is read as other lines than are listed"))
    }
}

/// A page that is read or nearly is: with any room, with a byte too little and with just enough.
pub fn seeded_read(seed: u64) -> Result<(), String> {
    let random = &mut Random::new(seed);
    let page = random::page(random);
    let length = lines(&page).map_or(0, |lines| lines.len());
    let any = any_room(random, length, NODES_BYTES);
    for room in [any, length.saturating_sub(1), length] {
        Lent::new(&page, room, [0; 8]).page_nodes()?;
    }
    Ok(())
}

fn any_room(random: &mut Random, length: usize, most: usize) -> usize {
    let any = random.below(most as u64) as usize;
    let short = length.saturating_sub(1);
    random.choose(&[length, short, length + 1, 0, most, any])
}

/// A page that must be answered so, and the output after it.
fn expect(due: i64, page: &[u8], room: usize) -> Result<Vec<u8>, String> {
    let mut lent = Lent::new(page, room, [0; 8]);
    match lent.page_nodes()? {
        answer if answer == due => Ok(lent.output().to_vec()),
        answer => {
            let page = page.escape_ascii();
            Err(format!(
                "PageNodes of '{page}' with room {room}: both answer {answer}, expected {due}"
            ))
        }
    }
}

/// A page that must be read as these lines: with just the room for them, and with a byte less.
fn expect_lines(page: &[u8], lines: &str) -> Result<(), String> {
    let length = lines.len();
    if length > 0 {
        expect(-34, page, length - 1)?;
    }
    let read = expect(length as i64, page, length)?;
    if read == lines.as_bytes() {
        Ok(())
    } else {
        let (page, read) = (page.escape_ascii(), read.escape_ascii());
        Err(format!("both read '{page}' as '{read}'"))
    }
}

/// A page that must be refused with 35, whatever the room is.
fn expect_refused(page: &[u8]) -> Result<(), String> {
    for room in [0, 1, LINE_BYTES, NODES_BYTES] {
        expect(-35, page, room)?;
    }
    Ok(())
}

fn node(key: u8, value: u32) -> Node {
    let links = Vec::new();
    Node { key, value, links }
}

/// A page with this text for its count and these lines.
fn sheet(count: &str, rows: &[&str]) -> Vec<u8> {
    let head = format!("nodes{count:>32}");
    [row(&head), body(rows)].concat()
}

fn body(rows: &[&str]) -> Vec<u8> {
    rows.iter().flat_map(|columns| row(columns)).collect()
}

/// A line of a page, its blanks at the end put in.
fn row(columns: &str) -> Vec<u8> {
    format!("{columns:<37}\n").into_bytes()
}
