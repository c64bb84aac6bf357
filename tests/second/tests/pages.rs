//! The page of S-1: how it is laid out, which pages are read and as what, and the tool.

mod common;

use std::collections::{BTreeMap, BTreeSet};
use std::io::Write;
use std::process::{Command, Output, Stdio};

use common::Desk;
use second::page::{lines, page, page_of, read};
use second::program::transcript;
use second::random::page::{damaged, drawn, Damage, DAMAGES};
use second::random::{self, session, Random, Scribe};
use second::samples::{broken, crowd, rich, whole};
use second::{host, image, session_of, Node, Refusal, Session, IMAGE_BYTES};

/// "Each line ends in a newline, 38 bytes in all."
const LINE: usize = 38;

fn node(key: u8, value: u32, links: &[u8]) -> Node {
    let links = links.to_vec();
    Node { key, value, links }
}

/// A line of a page, its blanks at the end put in.
fn row(columns: &str) -> String {
    let blanks = (LINE - 1).saturating_sub(columns.len());
    format!("{columns}{}\n", " ".repeat(blanks))
}

/// A head line with this text for its count.
fn head(count: &str) -> String {
    let blanks = LINE - 1 - "nodes".len() - count.len();
    format!("nodes{}{count}\n", " ".repeat(blanks))
}

/// A page of these lines, with their right count.
fn sheet(rows: &[&str]) -> String {
    let rows: String = rows.iter().map(|columns| row(columns)).collect();
    head(&(rows.len() / LINE).to_string()) + &rows
}

fn assert_read(page: &str, expected: &str) {
    assert_eq!(lines(page.as_bytes()).as_deref(), Ok(expected), "{page:?}");
}

fn assert_refused(page: impl AsRef<[u8]>) {
    let page = page.as_ref();
    let text = String::from_utf8_lossy(page);
    assert_eq!(lines(page), Err(Refusal::BadPage), "{text:?}");
}

/// Whether a page of one line is read, whatever it is read as.
fn is_read(columns: &str) -> bool {
    lines(sheet(&[columns]).as_bytes()).is_ok()
}

#[test]
fn a_page_by_hand() {
    let nodes = [
        node(64, 4_294_967_295, &[10, 20, 30, 40, 50, 60, 10, 20]),
        node(7, 19, &[5, 64, 5]),
        node(1, 0, &[]),
    ];
    let text = "nodes                               3\n\
                64 4294967295 10,20,30,40,50,60,10,20\n\
                \x207         19 5,64,5                 \n\
                \x201          0                        \n";
    assert_eq!(page_of(nodes.iter()), text);
    let expected = "key=64 value=4294967295 links=10,20,30,40,50,60,10,20\n\
                    key=7 value=19 links=5,64,5\n\
                    key=1 value=0 links=\n";
    assert_read(text, expected);
}

#[test]
fn a_page_without_nodes() {
    let text = "nodes                               0\n";
    assert_eq!(text.len(), LINE);
    assert_eq!(page(&Session::open()), text);
    assert_eq!(page_of([].iter()), text);
    assert_read(text, "");
}

/// What stands in these columns, counted from 1.
fn field(line: &str, columns: std::ops::RangeInclusive<usize>) -> &str {
    &line[columns.start() - 1..*columns.end()]
}

/// Columns by their numbers, for nodes of every width.
#[test]
fn columns_of_the_request() {
    let numbers = [0, 9, 10, 99_999, 999_999_999, 1_000_000_000, u32::MAX];
    for key in 1..=64 {
        for value in numbers {
            for count in 0..=8 {
                let links: Vec<u8> = (0..count).map(|link| 8 * link + key % 8 + 1).collect();
                let node = node(key, value, &links);
                let text = page_of([node].iter());
                let (head, line) = text.split_at(LINE);
                assert_eq!(head, "nodes                               1\n");
                assert_eq!(line.len(), LINE);
                assert_eq!(field(line, 1..=2), format!("{key:2}"));
                assert_eq!(field(line, 3..=3), " ");
                assert_eq!(field(line, 4..=13), format!("{value:10}"));
                assert_eq!(field(line, 14..=14), " ");
                let links: Vec<String> = links.iter().map(u8::to_string).collect();
                let links = links.join(",");
                assert!(field(line, 15..=37).starts_with(&links));
                assert!(line[14 + links.len()..37].bytes().all(|byte| byte == b' '));
                assert_eq!(field(line, 38..=38), "\n");
            }
        }
    }
}

/// Which head lines stand before a page of one node.
#[test]
fn the_head_line() {
    let line = row(" 1          5");
    assert_read(&(head("1") + &line), "key=1 value=5 links=\n");
    for count in [
        "", "0", "2", "01", "001", "+1", "-1", "1.", "1,", ",1", "1=", "=1", "1 1", "0 1", "one",
        "I", "\t1", "\r1", "\x001", "\x0B1", "1\0", "10", "11", "65", "257", "65537",
    ] {
        assert_refused(head(count) + &line);
    }
    // Those that are 1 where a number wraps around, at 16, 32 and 64 bits.
    for count in ["65537", "4294967297", "18446744073709551617"] {
        assert_refused(head(count) + &line);
    }
    let zeros = "0".repeat(31) + "1";
    assert_eq!(head(&zeros).len(), LINE);
    assert_refused(head(&zeros) + &line);
    for blanks in 0..31 {
        let columns = format!("nodes{}1", " ".repeat(blanks));
        assert_refused(row(&columns) + &line);
    }
    for word in [
        "Nodes", "NODES", "node ", "node", " node", "nodes=", "keys ", "", "n odes", "odesn",
        "nodes:", "nodes,", "nodes0", "nodes\t", "nodes\0", "nodes\r", "nodes\n",
    ] {
        let blanks = " ".repeat(LINE - 2 - word.len());
        assert_refused(format!("{word}{blanks}1\n{line}"));
    }
    assert_refused(&line);
    assert_refused(head("1") + &line + &head("1"));
    assert_refused(head("1") + &head("1"));
    assert_refused(head("2") + &head("1") + &line);
    assert_refused(line.clone() + &head("1"));
}

/// "Whose count is right."
#[test]
fn the_count_of_every_number_of_nodes() {
    let rows: Vec<String> = (1..=64)
        .map(|key| row(&format!("{key:2}          5")))
        .collect();
    for nodes in 0..=64 {
        let text: String = rows[..nodes].concat();
        let expected: String = (1..=nodes)
            .map(|key| format!("key={key} value=5 links=\n"))
            .collect();
        for count in 0..=130 {
            let page = head(&count.to_string()) + &text;
            if count == nodes {
                assert_read(&page, &expected);
            } else {
                assert_refused(page);
            }
        }
        assert_refused(head(&format!("0{nodes}")) + &text);
        assert_refused(head(&format!("{}", (1_u64 << 32) + nodes as u64)) + &text);
        assert_refused(head(&format!("{nodes} ")) + &text);
    }
}

/// Every pair of bytes at the end of the head line.
#[test]
fn every_pair_of_bytes_in_the_count() {
    let rows: String = (1..=12)
        .map(|key| row(&format!("{key:2}          5")))
        .collect();
    for nodes in [0, 1, 9, 10, 12] {
        let right = format!("{nodes:2}");
        let mut page = (head("") + &rows[..LINE * nodes]).into_bytes();
        for pair in 0..=u16::MAX {
            page[35..37].copy_from_slice(&pair.to_be_bytes());
            let reads = pair.to_be_bytes() == right.as_bytes();
            assert_eq!(lines(&page).is_ok(), reads, "{nodes} {pair:x}");
        }
    }
}

/// Every pair of bytes where a key stands: 64 are keys.
#[test]
fn every_pair_of_bytes_in_the_key() {
    let keys: BTreeMap<[u8; 2], u8> = (1..=9)
        .map(|key| ([b' ', b'0' + key], key))
        .chain((10..=64).map(|key| ([b'0' + key / 10, b'0' + key % 10], key)))
        .collect();
    assert_eq!(keys.len(), 64);
    let mut page = sheet(&["            5 64"]).into_bytes();
    for pair in 0..=u16::MAX {
        let pair = pair.to_be_bytes();
        page[LINE..LINE + 2].copy_from_slice(&pair);
        let expected = keys.get(&pair).ok_or(Refusal::BadPage);
        let expected = expected.map(|key| format!("key={key} value=5 links=64\n"));
        assert_eq!(lines(&page), expected, "{pair:?}");
    }
}

/// Every text of so many columns over an alphabet.
fn texts(alphabet: &[u8], columns: u32) -> impl Iterator<Item = Vec<u8>> + '_ {
    let base = alphabet.len();
    (0..base.pow(columns)).map(move |number| {
        let places = (0..columns).map(|place| number / base.pow(place) % base);
        places.map(|digit| alphabet[digit]).collect()
    })
}

/// The last four columns of the value: those that a number to 9,999 fills from the right.
#[test]
fn every_short_value() {
    let values: BTreeMap<Vec<u8>, u32> = (0..10_000)
        .map(|value: u32| {
            let digits = value.to_string().into_bytes();
            let blanks = vec![b' '; 4 - digits.len()];
            ([blanks, digits].concat(), value)
        })
        .collect();
    let mut page = sheet(&[" 9            1,2"]).into_bytes();
    for text in texts(b"0123456789 ,+-a\n\0", 4) {
        page[LINE + 9..LINE + 13].copy_from_slice(&text);
        let expected = values.get(&text).ok_or(Refusal::BadPage);
        let expected = expected.map(|value| format!("key=9 value={value} links=1,2\n"));
        assert_eq!(lines(&page), expected, "{text:?}");
    }
}

/// The lists of keys that have at most so many columns, joined by commas.
fn lists(columns: usize) -> BTreeSet<String> {
    let mut found = BTreeSet::from([String::new()]);
    let mut newest = found.clone();
    while !newest.is_empty() {
        let longer = newest.iter().flat_map(|list| {
            let comma = if list.is_empty() { "" } else { "," };
            (1..=64).map(move |key| format!("{list}{comma}{key}"))
        });
        newest = longer.filter(|list| list.len() <= columns).collect();
        found.extend(newest.iter().cloned());
    }
    found
}

/// The first five columns of the links, with nothing after them.
#[test]
fn every_short_list_of_links() {
    let lists = lists(5);
    let mut page = sheet(&[" 9          0"]).into_bytes();
    let mut read = 0;
    for text in texts(b"0123456789, +\n", 5) {
        page[LINE + 14..LINE + 19].copy_from_slice(&text);
        let text = String::from_utf8(text).expect("text");
        let list = text.trim_end_matches(' ');
        let expected = match lists.contains(list) {
            true => Ok(format!("key=9 value=0 links={list}\n")),
            false => Err(Refusal::BadPage),
        };
        read += usize::from(expected.is_ok());
        assert_eq!(lines(&page), expected, "{text:?}");
    }
    assert_eq!(read, lists.len());
}

#[test]
fn keys_at_the_limits() {
    for key in [" 1", " 2", " 9", "10", "63", "64"] {
        assert!(is_read(&format!("{key}          5")), "{key}");
    }
    for key in [
        " 0", "00", "01", "09", "65", "66", "70", "99", "1 ", "  ", "+1", "-1", "1,", ",1", "1\t",
        "\t1", "\n1", "1\n", "\x001", "a1", "1a", "0x", "==", "\x0B1",
    ] {
        assert!(!is_read(&format!("{key}          5")), "{key:?}");
    }
}

#[test]
fn values_at_the_limits() {
    for (field, value) in [
        ("         0", "0"),
        ("         9", "9"),
        ("        10", "10"),
        (" 999999999", "999999999"),
        ("1000000000", "1000000000"),
        ("2147483647", "2147483647"),
        ("2147483648", "2147483648"),
        ("4294967294", "4294967294"),
        ("4294967295", "4294967295"),
    ] {
        let page = sheet(&[&format!(" 1 {field}")]);
        assert_read(&page, &format!("key=1 value={value} links=\n"));
    }
    for field in [
        "4294967296",
        "4294967297",
        "4294967300",
        "4295000000",
        "5000000000",
        "8589934591",
        "9999999999",
        "0000000000",
        "0000000005",
        "        00",
        "        05",
        " 000000005",
        "0999999999",
        "          ",
        "5         ",
        "        5 ",
        " 5        ",
        "       +5",
        "        -5",
        "        +0",
        "       1 2",
        "       1,2",
        "       1.2",
        "     5e+01",
        "       0x5",
        "         a",
        "        5,",
        "        ,5",
        "        5\t",
        "\t\t\t\t\t\t\t\t\t5",
        "\0\0\0\0\0\0\0\0\x005",
        "\n        5",
        "        5\n",
        "1 00000000",
        "  value=5 ",
    ] {
        assert!(!is_read(&format!(" 1 {field:>10}")), "{field:?}");
    }
    // A field one column to the left or right, and one digit more than it has columns.
    for columns in [
        " 1         5 ",
        " 1           5",
        " 1 42949672950",
        " 142949672950",
        " 110000000000",
    ] {
        assert!(!is_read(columns), "{columns:?}");
    }
}

#[test]
fn links_at_the_limits() {
    for links in [
        "",
        "1",
        "9",
        "10",
        "64",
        "1,1",
        "2,1",
        "64,64",
        "1,2,3,4,5,6,7,8",
        "8,7,6,5,4,3,2,1",
        "1,1,1,1,1,1,1,1",
        "64,64,64,64,64,64,64,64",
        "10,9,10,9,10,9,10,9",
        "50",
        "64,63,62,61,60,59,58,1",
        "1,63,62,61,60,59,58,57",
    ] {
        let page = sheet(&[&format!("64          5 {links}")]);
        assert_read(&page, &format!("key=64 value=5 links={links}\n"));
    }
    for links in [
        "0",
        "00",
        "01",
        "010",
        "65",
        "66",
        "99",
        "100",
        "256",
        "257",
        "4294967297",
        "1,0",
        "0,1",
        "1,65",
        "65,1",
        "1,01",
        ",",
        ",1",
        "1,",
        "1,,2",
        ",,",
        "1,2,",
        "1, 2",
        "1 ,2",
        "1 2",
        " 1,2 ",
        "1;2",
        "1.2",
        "1\t",
        "1,\t2",
        "\t",
        "+1",
        "-1",
        "1,+2",
        "all",
        "1,all",
        "1,2,3,4,5,6,7,8,9",
        "1,1,1,1,1,1,1,1,1",
        "1,2,3,4,5,6,7,8,",
        ",1,2,3,4,5,6,7,8",
        "1,2,3,4,5,6,7,8,9,10",
        "1,2,3,4,5,6,7,8,9,1,2,3",
        "10,10,10,10,10,9,9,9,9",
        "64,64,64,64,64,64,64,6,",
        "64,64,64,64,64,64,64,,4",
        "64,64,64,64,64,64,64,65",
        "64,64,64,64,64,64,64,04",
        "64,64,64,64,64,64,64 64",
        "64,64,64,64,64,64,64, 4",
        "64,64,64,64,64,64,64\n64",
        "1,2,3,4,5,6,7,8 9",
        "1,2,3,4,5,6,7,8        9",
        "                      1",
        " 1",
        "  ,",
        "1\0",
        "\0",
        "1\r",
        "\r",
        "links=1",
        "1=",
    ] {
        assert!(!is_read(&format!("64          5 {links}")), "{links:?}");
    }
    // A list of more than 23 columns lengthens its line, and one of column 14 begins early.
    assert!(!is_read("64          5 64,64,64,64,64,64,64,64,6"));
    assert!(!is_read("64          51,2"));
    assert!(!is_read("64          5,1,2"));
    assert!(!is_read("64          5  1,2"));
}

/// "All else is blank": columns 3 and 14, and no other byte is a blank.
#[test]
fn what_is_blank() {
    let mut page = sheet(&[" 1          5 2"]).into_bytes();
    for column in [3, 14] {
        for byte in 0..=u8::MAX {
            page[LINE + column - 1] = byte;
            assert_eq!(lines(&page).is_ok(), byte == b' ', "{column} {byte}");
        }
        page[LINE + column - 1] = b' ';
    }
    for column in (6..=36).chain(LINE + 16..=LINE + 37) {
        for byte in [
            b'\t', b'\n', b'\r', 0, 0x0B, 0x0C, 0xA0, 0xFF, b'_', b'.', b'0',
        ] {
            let mut page = page.clone();
            page[column - 1] = byte;
            // A 0 at the end of the links makes 20 of the 2.
            let reads = column == LINE + 16 && byte == b'0';
            assert_eq!(lines(&page).is_ok(), reads, "{column} {byte}");
        }
    }
}

/// "Whose keys are distinct", wherever the two stand, and in whatever order.
#[test]
fn distinct_keys() {
    let line = |key: u8, value: u32| format!("{key:2} {value:10}");
    let read = |keys: &[u8]| {
        let rows: Vec<String> = (0..).zip(keys).map(|(at, &key)| line(key, at)).collect();
        let rows: Vec<&str> = rows.iter().map(String::as_str).collect();
        let page = sheet(&rows);
        let expected = (0..).zip(keys);
        let expected: String = expected
            .map(|(at, key)| format!("key={key} value={at} links=\n"))
            .collect();
        match lines(page.as_bytes()) {
            Ok(lines) => {
                assert_eq!(lines, expected);
                true
            }
            Err(refusal) => {
                assert_eq!(refusal, Refusal::BadPage);
                false
            }
        }
    };
    let falling: Vec<u8> = (1..=64).rev().collect();
    let rising: Vec<u8> = (1..=64).collect();
    for keys in [
        &falling[..],
        &rising,
        &[2, 1],
        &[1, 2],
        &[64],
        &[5, 64, 1],
        &[3, 9, 4],
    ] {
        assert!(read(keys));
    }
    for first in 0..64 {
        for second in 0..64 {
            let mut keys = rising.clone();
            keys[second] = keys[first];
            assert_eq!(read(&keys), first == second);
        }
    }
    for keys in [
        &[1, 1][..],
        &[64, 64],
        &[1, 2, 1],
        &[2, 1, 1],
        &[1, 2, 3, 2],
    ] {
        assert!(!read(keys));
    }
    // More than 64 nodes have some key twice.
    for key in 1..=64 {
        assert!(!read(&[&falling[..], &[key]].concat()));
        assert!(!read(&[&[key], &rising[..]].concat()));
    }
    assert!(!read(&rising.repeat(2)));
    let same = row(&line(7, 7));
    assert_refused(head("2") + &same + &same);
}

fn three_nodes() -> [&'static str; 4] {
    [
        "nodes                               3\n",
        " 7         19 5,64,5                 \n",
        "64 4294967295 10,20,30,40,50,60,10,20\n",
        " 1          0                        \n",
    ]
}

/// Damages of one byte that make another good line, each with the line that it is read as.
/// The keys 7, 64 and 1 of the other lines are left out.
fn good_lines(line: usize) -> BTreeMap<String, String> {
    let mut good = BTreeMap::new();
    let mut put = |page: String, listed: String| {
        good.insert(row(&page), listed);
    };
    match line {
        1 => {
            let rest = "        19 5,64,5";
            for ten in 1..=5 {
                put(
                    format!("{ten}7 {rest}"),
                    format!("key={ten}7 value=19 links=5,64,5\n"),
                );
            }
            for key in [2, 3, 4, 5, 6, 7, 8, 9] {
                put(
                    format!(" {key} {rest}"),
                    format!("key={key} value=19 links=5,64,5\n"),
                );
            }
            put(
                " 7          9 5,64,5".into(),
                "key=7 value=9 links=5,64,5\n".into(),
            );
            for digit in 1..=9 {
                put(
                    format!(" 7        {digit}19 5,64,5"),
                    format!("key=7 value={digit}19 links=5,64,5\n"),
                );
                put(
                    format!(" 7         {digit}9 5,64,5"),
                    format!("key=7 value={digit}9 links=5,64,5\n"),
                );
            }
            for digit in 0..=9 {
                put(
                    format!(" 7         1{digit} 5,64,5"),
                    format!("key=7 value=1{digit} links=5,64,5\n"),
                );
            }
            let numbered = |links: String| {
                (
                    format!(" 7         19 {links}"),
                    format!("key=7 value=19 links={links}\n"),
                )
            };
            let firsts = (1..=9).map(|key| format!("{key},64,5"));
            let tens = (1..=5).map(|ten| format!("5,{ten}4,5"));
            let seconds = (60..=64).map(|key| format!("5,{key},5"));
            let thirds = (1..=9).chain(50..=59).map(|key| format!("5,64,{key}"));
            for links in firsts.chain(tens).chain(seconds).chain(thirds) {
                let (page, listed) = numbered(links);
                put(page, listed);
            }
        }
        2 => {
            let links = "10,20,30,40,50,60,10,20";
            for key in [4, 14, 24, 34, 44, 54, 60, 61, 62, 63, 64] {
                put(
                    format!("{key:2} 4294967295 {links}"),
                    format!("key={key} value=4294967295 links={links}\n"),
                );
            }
            // No digit can be raised; the first can be none.
            for (place, digit) in "4294967295".bytes().enumerate() {
                let lowest = if place == 0 { b'1' } else { b'0' };
                for lower in lowest..digit {
                    let mut value = "4294967295".to_string().into_bytes();
                    value[place] = lower;
                    let value = String::from_utf8(value).expect("digits");
                    put(
                        format!("64 {value} {links}"),
                        format!("key=64 value={value} links={links}\n"),
                    );
                }
            }
            put(
                format!("64  294967295 {links}"),
                format!("key=64 value=294967295 links={links}\n"),
            );
            let keys = [10, 20, 30, 40, 50, 60, 10, 20];
            for (place, key) in keys.into_iter().enumerate() {
                let tens = (1..=6).map(|ten| 10 * ten);
                let ones = (key..key + 10).filter(|&key| key <= 64);
                let blank = (place == 7).then_some(2);
                for other in tens.chain(ones).chain(blank) {
                    let mut keys = keys;
                    keys[place] = other;
                    let links = keys.map(|key: u8| key.to_string()).join(",");
                    put(
                        format!("64 4294967295 {links}"),
                        format!("key=64 value=4294967295 links={links}\n"),
                    );
                }
            }
        }
        3 => {
            for key in [1, 2, 3, 4, 5, 6, 8, 9, 11, 21, 31, 41, 51, 61] {
                put(
                    format!("{key:2}          0"),
                    format!("key={key} value=0 links=\n"),
                );
            }
            for value in (0..=9).chain([10, 20, 30, 40, 50, 60, 70, 80, 90]) {
                put(
                    format!(" 1 {value:10}"),
                    format!("key=1 value={value} links=\n"),
                );
            }
            for link in 1..=9 {
                put(
                    format!(" 1          0 {link}"),
                    format!("key=1 value=0 links={link}\n"),
                );
            }
        }
        _ => {}
    }
    good
}

/// Every damage of one byte, decided by the lines above: the head line has no other.
#[test]
fn every_damage_of_one_byte() {
    let rows = three_nodes();
    let page = rows.concat();
    let listed = [
        "",
        "key=7 value=19 links=5,64,5\n",
        "key=64 value=4294967295 links=10,20,30,40,50,60,10,20\n",
        "key=1 value=0 links=\n",
    ];
    assert_read(&page, &listed.concat());
    let good: Vec<BTreeMap<String, String>> = (0..4).map(good_lines).collect();
    let mut met = 0;
    for place in 0..page.len() {
        for byte in 0..=u8::MAX {
            let mut damaged = page.clone().into_bytes();
            damaged[place] = byte;
            let line = place / LINE;
            let text = String::from_utf8_lossy(&damaged[LINE * line..][..LINE]);
            let expected = match good[line].get(&*text) {
                _ if damaged == page.as_bytes() => Ok(listed.concat()),
                Some(other) => {
                    met += 1;
                    let mut listed = listed;
                    listed[line] = other;
                    Ok(listed.concat())
                }
                None => Err(Refusal::BadPage),
            };
            assert_eq!(lines(&damaged), expected, "{place} {byte}");
        }
    }
    // Every good line but the page's own is one byte away, so each was met once.
    let others: usize = good.iter().skip(1).map(|good| good.len() - 1).sum();
    assert_eq!(met, others);
}

/// Cut anywhere, or longer by anything, it is another page or none.
#[test]
fn every_length() {
    let page = three_nodes().concat();
    for length in 0..page.len() {
        assert_refused(&page[..length]);
        assert_refused(&page[length + 1..]);
        let without = [&page[..length], &page[length + 1..]].concat();
        assert_refused(&without);
        for byte in 0..=u8::MAX {
            let mut longer = page.clone().into_bytes();
            longer.insert(length, byte);
            assert_refused(&longer);
        }
    }
    for byte in 0..=u8::MAX {
        assert_refused([page.as_bytes(), &[byte]].concat());
    }
    let blank = " ".repeat(LINE - 1) + "\n";
    for more in [
        "\n\n",
        "\r\n",
        &blank,
        &" ".repeat(LINE),
        &row(" 2          5"),
        &page,
    ] {
        assert_refused(page.clone() + more);
        assert_refused(String::from(more) + &page);
    }
    let four = page.replacen('3', "4", 1);
    assert_read(&(four.clone() + &row(" 2          5")), &{
        let lines = lines(page.as_bytes()).expect("a page");
        lines + "key=2 value=5 links=\n"
    });
    assert_refused(&four);
    assert_refused(four.clone() + &blank);
    assert_refused(four + "\n");
    assert_refused("");
    assert_refused("\n");
    assert_refused("nodes");
    assert_refused("nodes=0\n");
    assert_refused(&blank);
}

/// A newline stands at the end of each line, the last one too, and nowhere else.
#[test]
fn newlines() {
    let page = three_nodes().concat();
    assert_refused(page.replace('\n', "\r\n"));
    assert_refused(page.replace('\n', "\r"));
    assert_refused(page.replace('\n', " "));
    assert_refused(page.replace('\n', ""));
    assert_refused(page.replace(" \n", "\n"));
    assert_refused(page.replace(" \n", "\r\n"));
    assert_refused(page.replace("\n", "\n\n"));
    assert_refused(page.strip_suffix('\n').expect("a newline"));
    for line in 1..=4 {
        let mut page = page.clone().into_bytes();
        page.swap(LINE * line - 1, LINE * line - 2);
        assert_refused(page);
    }
}

/// Lines in another order are another page; the head line is first.
#[test]
fn any_order_of_lines() {
    let [head, a, b, c] = three_nodes();
    let listed = |line: &str| {
        let page = String::from("nodes                               1\n") + line;
        lines(page.as_bytes()).expect("a page")
    };
    for order in [
        [a, b, c],
        [a, c, b],
        [b, a, c],
        [b, c, a],
        [c, a, b],
        [c, b, a],
    ] {
        let page = String::from(head) + &order.concat();
        assert_read(&page, &order.map(listed).concat());
    }
    assert_refused([a, head, b, c].concat());
    assert_refused([a, b, c, head].concat());
    assert_refused([head, a, a, b].concat());
}

/// 64 nodes with eight links of two digits, and values of ten.
#[test]
fn the_longest_page() {
    let nodes: Vec<Node> = (1..=64)
        .rev()
        .map(|key| {
            node(
                key,
                u32::MAX - u32::from(key),
                &[64, 10, 64, 11, 12, 13, 64, 10],
            )
        })
        .collect();
    let page = page_of(nodes.iter());
    assert_eq!(page.len(), 2470);
    let expected: String = nodes
        .iter()
        .map(|node| {
            let Node { key, value, .. } = node;
            format!("key={key} value={value} links=64,10,64,11,12,13,64,10\n")
        })
        .collect();
    assert_eq!(expected.len(), 64 * 54 - 9);
    assert_read(&page, &expected);
    assert_eq!(
        written(3447, |out| host::page_nodes(page.as_bytes(), out)).0,
        3447
    );
    assert_eq!(
        written(3446, |out| host::page_nodes(page.as_bytes(), out)).0,
        -34
    );
    let mut session = crowd(64, 0, 0, 0);
    for (station, node) in session.stations.iter_mut().zip(&nodes) {
        station.node = node.clone();
    }
    let bytes = image(&session);
    assert_eq!(
        written(2470, |out| host::page(&bytes, out)),
        (2470, page.into_bytes())
    );
    assert_eq!(written(2469, |out| host::page(&bytes, out)).0, -34);
}

/// The listing's `key=` lines.
fn listed(session: &Session) -> String {
    let mut out = [0; 8192];
    let length = session.list(&mut out) as usize;
    let listing = String::from_utf8(out[..length].to_vec()).expect("a listing is text");
    let lines = listing.split_inclusive('\n');
    lines.filter(|line| line.starts_with("key=")).collect()
}

fn assert_returns(session: &Session) {
    let expected = listed(session);
    let text = page(session);
    assert_eq!(text.len(), LINE * (1 + session.stations.len()));
    assert_read(&text, &expected);
    let bytes = image(session);
    let (answer, out) = written(text.len(), |out| host::page(&bytes, out));
    assert_eq!((answer, &out[..]), (text.len() as i64, text.as_bytes()));
    let (answer, out) = written(expected.len(), |out| host::page_nodes(text.as_bytes(), out));
    assert_eq!(
        (answer, &out[..]),
        (expected.len() as i64, expected.as_bytes())
    );
}

/// "A page reads back as the listing's `key=` lines for the same nodes."
#[test]
fn random_sessions_return() {
    let mut random = Random::new(1);
    let mut nodes = [0; 65];
    for _ in 0..3000 {
        let session = session::any(&mut random);
        nodes[session.stations.len()] += 1;
        assert_returns(&session);
    }
    assert!(nodes[0] > 0 && nodes[1] > 0 && nodes[64] > 0, "{nodes:?}");
}

#[test]
fn sessions_of_random_lines_return() {
    for seed in 0..30 {
        let mut scribe = Scribe::new(seed);
        let mut desk = Desk::new();
        for _ in 0..300 {
            let line = scribe.line(&desk.session);
            desk.serve(&line);
            assert_returns(&desk.session);
        }
    }
    for bytes in [rich(), whole()] {
        assert_returns(&session_of(&bytes).expect("a session"));
    }
}

/// Gives a function so much room in the middle of a larger buffer, and checks that nothing
/// beside the room changes.
fn written(room: usize, function: impl FnOnce(&mut [u8]) -> i64) -> (i64, Vec<u8>) {
    const MARGIN: usize = 16;
    let mut bytes = vec![0xA5; MARGIN + room + MARGIN];
    let answer = function(&mut bytes[MARGIN..][..room]);
    let out = bytes[MARGIN..][..room].to_vec();
    bytes[MARGIN..][..room].fill(0xA5);
    assert!(bytes.iter().all(|&byte| byte == 0xA5));
    (answer, out)
}

fn untouched(answer: i64, room: usize) -> (i64, Vec<u8>) {
    (answer, vec![0xA5; room])
}

/// Every room up to ten bytes more than a text needs.
fn assert_rooms(text: &str, function: impl Fn(&mut [u8]) -> i64) {
    for room in 0..text.len() {
        assert_eq!(written(room, &function), untouched(-34, room));
    }
    for more in 0..10 {
        let expected = [text.as_bytes(), &vec![0xA5; more]].concat();
        let answer = (text.len() as i64, expected);
        assert_eq!(written(text.len() + more, &function), answer);
    }
}

#[test]
fn rooms() {
    for bytes in [image(&Session::open()), rich(), image(&crowd(64, 0, 0, 0))] {
        let session = session_of(&bytes).expect("a session");
        let page = page(&session);
        assert_rooms(&page, |out| host::page(&bytes, out));
        assert_rooms(&listed(&session), |out| {
            host::page_nodes(page.as_bytes(), out)
        });
    }
}

/// 1, then 2, then 34.
#[test]
fn a_page_is_refused_in_order() {
    for length in [0, 1, IMAGE_BYTES - 1, IMAGE_BYTES + 1, 2 * IMAGE_BYTES] {
        let bytes = vec![0; length];
        for room in [0, 37, 38, 3000] {
            assert_eq!(
                written(room, |out| host::page(&bytes, out)),
                untouched(-1, room)
            );
        }
    }
    for (_, bytes) in broken() {
        for room in [0, 37, 38, 3000] {
            assert_eq!(
                written(room, |out| host::page(&bytes, out)),
                untouched(-2, room)
            );
        }
    }
}

/// 35, then 34.
#[test]
fn nodes_are_refused_in_order() {
    let page = three_nodes().concat();
    let cut = &page[..page.len() - 1];
    for bytes in [cut, "", "\n", "nodes"] {
        for room in [0, 1, 54, 3000] {
            let answer = written(room, |out| host::page_nodes(bytes.as_bytes(), out));
            assert_eq!(answer, untouched(-35, room));
        }
    }
    let answer = written(0, |out| host::page_nodes(page.as_bytes(), out));
    assert_eq!(answer, untouched(-34, 0));
    let none = head("0");
    assert_eq!(
        written(0, |out| host::page_nodes(none.as_bytes(), out)),
        untouched(0, 0)
    );
    assert_eq!(
        written(9, |out| host::page_nodes(none.as_bytes(), out)),
        untouched(0, 9)
    );
}

/// What the tool prints, given this on standard input.
fn tool(arguments: &[&str], input: &[u8]) -> Output {
    let mut child = Command::new(env!("CARGO_BIN_EXE_tool"))
        .args(arguments)
        .stdin(Stdio::piped())
        .stdout(Stdio::piped())
        .stderr(Stdio::piped())
        .spawn()
        .expect("the tool runs");
    let mut stdin = child.stdin.take().expect("a pipe");
    // A tool that prints its usage may end before it was sent all.
    let _ = stdin.write_all(input);
    drop(stdin);
    child.wait_with_output().expect("the tool ends")
}

fn assert_printed(output: &Output, code: i32, text: &[u8]) {
    assert_eq!(output.status.code(), Some(code));
    assert_eq!(output.stdout, text);
    assert!(output.stderr.is_empty());
}

const SCRIPT: &str = "call=add value=5\n\
                      call=add value=7\n\
                      call=map a=3 b=4 to=1,2\n\
                      call=link key=2 to=1\n\
                      call=none\n\
                      claim=9\n\
                      step=drain\n\
                      claim=1\n\
                      call=map a=0 b=0 to=1\n\
                      \n\
                      call=add value=100";

/// Refusals and claims aren't printed, and calls that wait show nothing.
#[test]
fn the_tool_prints_a_page() {
    let page = "nodes                               2\n\
                \x202         25                        \n\
                \x201         19 2                      \n";
    assert_printed(&tool(&["page"], SCRIPT.as_bytes()), 0, page.as_bytes());
    let newline = String::from(SCRIPT) + "\n";
    assert_printed(&tool(&["page"], newline.as_bytes()), 0, page.as_bytes());
    let drained = newline + "step=drain\n";
    let page = "nodes                               3\n\
                \x203        100                        \n\
                \x202         25                        \n\
                \x201          0 2                      \n";
    assert_printed(&tool(&["page"], drained.as_bytes()), 0, page.as_bytes());
    let without = drained.trim_end();
    assert_printed(&tool(&["page"], without.as_bytes()), 0, page.as_bytes());
    for nothing in [&b""[..], b"\n", b"call", b"\xFF\0\n\n"] {
        assert_printed(&tool(&["page"], nothing), 0, head("0").as_bytes());
    }
}

#[test]
fn the_tool_prints_nodes() {
    let page = three_nodes().concat();
    let expected = "key=7 value=19 links=5,64,5\n\
                    key=64 value=4294967295 links=10,20,30,40,50,60,10,20\n\
                    key=1 value=0 links=\n";
    assert_printed(&tool(&["nodes"], page.as_bytes()), 0, expected.as_bytes());
    assert_printed(&tool(&["nodes"], head("0").as_bytes()), 0, b"");
    let long = head("4000") + &row(" 1          5").repeat(4000);
    for other in [
        "",
        "\n",
        "nodes",
        &page[1..],
        &page[..page.len() - 1],
        &long,
    ] {
        assert_printed(&tool(&["nodes"], other.as_bytes()), 1, b"refused=35\n");
    }
}

/// For random scripts, the page leads back to the lines that `cgrun` lists.
#[test]
fn the_tool_returns() {
    for seed in 0..20 {
        let mut scribe = Scribe::new(seed);
        let mut desk = Desk::new();
        let mut script = Vec::new();
        for _ in 0..400 {
            let line = scribe.line(&desk.session);
            desk.serve(&line);
            script.extend_from_slice(&line);
            script.push(b'\n');
        }
        let printed = transcript(&script);
        let lines = printed.split_inclusive(|&byte| byte == b'\n');
        let lines: Vec<&[u8]> = lines.filter(|line| line.starts_with(b"key=")).collect();
        let output = tool(&["page"], &script);
        assert_printed(&output, 0, page(&desk.session).as_bytes());
        assert_printed(&tool(&["nodes"], &output.stdout), 0, &lines.concat());
    }
}

#[test]
fn the_tool_takes_no_other_arguments() {
    let usage = "usage: tool load SEED COUNT\n       tool page\n       tool nodes\n";
    let others: [&[&str]; 14] = [
        &[],
        &["pages"],
        &["node"],
        &["Page"],
        &["Nodes"],
        &["page", ""],
        &["page", "page"],
        &["nodes", "nodes"],
        &["nodes", "page"],
        &["page", "0", "1"],
        &["nodes", "0", "1"],
        &["", "page"],
        &["load", "page"],
        &["--page"],
    ];
    for arguments in others {
        let output = tool(arguments, head("0").as_bytes());
        assert_eq!(output.status.code(), Some(2), "{arguments:?}");
        assert!(output.stdout.is_empty());
        assert_eq!(output.stderr, usage.as_bytes());
    }
}

/// About half of the random pages are read. Every damage is met, and so is every number of
/// nodes.
#[test]
fn random_pages() {
    let mut random = Random::new(35);
    let (mut read, mut met, mut refused) = (0, [0; DAMAGES.len()], [0; DAMAGES.len()]);
    let mut nodes = [0; 65];
    for _ in 0..20_000 {
        let (damage, page) = drawn(&mut random);
        let outcome = lines(&page);
        read += usize::from(outcome.is_ok());
        match damage {
            Some(damage) => {
                met[damage as usize] += 1;
                refused[damage as usize] += usize::from(outcome.is_err());
            }
            None => nodes[outcome.expect("a good page").lines().count()] += 1,
        }
    }
    assert!((8_000..12_000).contains(&read), "{read}");
    assert!(met.iter().all(|&times| times > 200), "{met:?}");
    assert!(refused.iter().all(|&times| times > 50), "{refused:?}");
    assert!(nodes.iter().all(|&times| times > 0), "{nodes:?}");
}

/// Some kinds of damage are always refused; of the others some pages are read.
#[test]
fn random_damages() {
    let mut random = Random::new(34);
    for (place, damage) in DAMAGES.into_iter().enumerate() {
        assert_eq!(damage as usize, place);
        let pages = (0..2000).map(|_| damaged(&mut random, damage));
        let read = pages.filter(|page| lines(page).is_ok()).count();
        let always_refused = matches!(
            damage,
            Damage::Cut
                | Damage::Longer
                | Damage::Shift
                | Damage::LeadingZero
                | Damage::Sign
                | Damage::BlankInside
                | Damage::NodesAbove
                | Damage::Between
                | Damage::Newline
                | Damage::OtherBlank
        );
        assert_eq!(read == 0, always_refused, "{damage:?} {read}");
        assert!(read < 1800, "{damage:?} {read}");
    }
}

/// The nodes that a page may have, taken apart without a look at sides, blanks and zeros.
fn lenient(page: &str) -> Option<Vec<Node>> {
    let rows = page.lines().skip(1);
    rows.map(|row| {
        let key = row.get(..3)?.trim().parse().ok()?;
        let value = row.get(3..14)?.trim().parse().ok()?;
        let links = row.get(14..)?.trim();
        let links: Option<Vec<u8>> = links
            .split_terminator(',')
            .map(|link| link.trim().parse().ok())
            .collect();
        Some(node(key, value, &links?))
    })
    .collect()
}

/// A page is read where it is the page of nodes within the limits, and as these.
#[test]
fn random_pages_against_the_writer() {
    let limits = |nodes: &[Node]| {
        let keys: BTreeSet<u8> = nodes.iter().map(|node| node.key).collect();
        let links = nodes.iter().flat_map(|node| &node.links);
        keys.len() == nodes.len()
            && keys.iter().chain(links).all(|key| (1..=64).contains(key))
            && nodes.iter().all(|node| node.links.len() <= 8)
    };
    let mut random = Random::new(1);
    for _ in 0..20_000 {
        let page = random::page(&mut random);
        let nodes = std::str::from_utf8(&page).ok().and_then(lenient);
        let nodes = nodes.filter(|nodes| limits(nodes));
        let nodes = nodes.filter(|nodes| page_of(nodes.iter()).as_bytes() == page);
        let text = String::from_utf8_lossy(&page);
        assert_eq!(read(&page), nodes, "{text:?}");
    }
}

/// The same seed gives the same pages.
#[test]
fn random_pages_are_seeded() {
    let pages = |seed| {
        let mut random = Random::new(seed);
        let pages: Vec<Vec<u8>> = (0..50).map(|_| random::page(&mut random)).collect();
        pages
    };
    assert_eq!(pages(1), pages(1));
    assert_ne!(pages(1), pages(2));
}
