//! Random pages of S-1: about half are read, and the others nearly are.

use super::{value, Random};
use crate::line::{KEYS, LIST};
use crate::page::{page_of, LINE_BYTES};
use crate::session::Node;

/// What is done to a page. Some of these change nothing at times, or give another page that
/// is read.
#[derive(Clone, Copy, Debug, PartialEq, Eq)]
pub enum Damage {
    /// One byte or two are others.
    Bytes,
    /// A digit is another.
    Digit,
    /// The page ends early.
    Cut,
    /// Something comes after the page.
    Longer,
    /// A byte is put in or taken out.
    Shift,
    /// The count is one more or one less, or is right where it wraps around.
    Count,
    /// A field stands on the wrong side, or on neither.
    Side,
    /// A field begins with a 0.
    LeadingZero,
    /// A field begins with a sign.
    Sign,
    /// A field is blank.
    Empty,
    /// A field has a blank inside.
    BlankInside,
    /// A key, a value or a link is at a limit or outside.
    Limit,
    /// A list has eight links or nine.
    NinthLink,
    /// A list begins or ends with a comma, or has two together.
    Comma,
    /// Two nodes have one key.
    KeyTwice,
    /// There are 65 nodes.
    NodesAbove,
    /// A column between two fields is not blank.
    Between,
    /// A line ends in something else.
    Newline,
    /// A line is missing, twice there, or in another place.
    Lines,
    /// The head line's word is another.
    Word,
    /// A blank is one of another kind.
    OtherBlank,
}

/// Every kind of damage.
pub const DAMAGES: [Damage; 21] = [
    Damage::Bytes,
    Damage::Digit,
    Damage::Cut,
    Damage::Longer,
    Damage::Shift,
    Damage::Count,
    Damage::Side,
    Damage::LeadingZero,
    Damage::Sign,
    Damage::Empty,
    Damage::BlankInside,
    Damage::Limit,
    Damage::NinthLink,
    Damage::Comma,
    Damage::KeyTwice,
    Damage::NodesAbove,
    Damage::Between,
    Damage::Newline,
    Damage::Lines,
    Damage::Word,
    Damage::OtherBlank,
];

/// A page near the boundary of those that are read.
pub fn page(random: &mut Random) -> Vec<u8> {
    drawn(random).1
}

/// The same, with what was done to it. Every second page is as it was written.
pub fn drawn(random: &mut Random) -> (Option<Damage>, Vec<u8>) {
    if random.once_in(2) {
        let nodes = nodes(random);
        return (None, page_of(nodes.iter()).into_bytes());
    }
    let damage = if random.once_in(4) {
        Damage::Bytes
    } else {
        random.choose(&DAMAGES)
    };
    let mut page = damaged(random, damage);
    if random.once_in(12) {
        bytes(random, &mut page);
    }
    (Some(damage), page)
}

/// A page with this damage.
pub fn damaged(random: &mut Random, damage: Damage) -> Vec<u8> {
    let nodes = nodes(random);
    let mut page = page_of(nodes.iter()).into_bytes();
    match damage {
        Damage::Bytes => bytes(random, &mut page),
        Damage::Digit => digit(random, &mut page),
        Damage::Cut => cut(random, &mut page),
        Damage::Longer => longer(random, &mut page),
        Damage::Shift => shift(random, &mut page),
        Damage::Count => count(random, &mut page, nodes.len() as u64),
        Damage::Side => side(random, &mut page),
        Damage::LeadingZero => begin(random, &mut page, b"0"),
        Damage::Sign => begin(random, &mut page, b"++-"),
        Damage::Empty => any_field(random, &page).put(&mut page, b""),
        Damage::BlankInside => blank_inside(random, &mut page),
        Damage::Limit => limit(random, &mut page),
        Damage::NinthLink => ninth_link(random, &mut page),
        Damage::Comma => comma(random, &mut page),
        Damage::KeyTwice => key_twice(random, &mut page),
        Damage::NodesAbove => page = nodes_above(random),
        Damage::Between => between(random, &mut page),
        Damage::Newline => newline(random, &mut page),
        Damage::Lines => lines(random, &mut page),
        Damage::Word => word(random, &mut page),
        Damage::OtherBlank => other_blank(random, &mut page),
    }
    page
}

/// Distinct keys in any order, or falling as a session has them.
fn nodes(random: &mut Random) -> Vec<Node> {
    let count = match random.below(10) {
        0 => 0,
        1 => u64::from(KEYS) - random.below(2),
        2 => random.below(u64::from(KEYS) + 1),
        _ => 1 + random.below(5),
    };
    let count = count as usize;
    let keys = match random.below(4) {
        0 => (1..=count as u8).rev().collect(),
        _ => some_keys(random, count),
    };
    keys.into_iter().map(|key| node(random, key)).collect()
}

/// So many of the keys; where they are few, often the first and last of one or two digits.
fn some_keys(random: &mut Random, count: usize) -> Vec<u8> {
    let mut keys: Vec<u8> = (1..=KEYS).collect();
    shuffle(random, &mut keys);
    if random.once_in(2) {
        keys.sort_by_key(|key| ![1, 9, 10, 63, 64].contains(key));
        let edges = keys.len().min(5);
        shuffle(random, &mut keys[..edges]);
    }
    keys.truncate(count);
    keys
}

fn shuffle(random: &mut Random, keys: &mut [u8]) {
    for last in (1..keys.len()).rev() {
        keys.swap(last, random.below(last as u64 + 1) as usize);
    }
}

fn node(random: &mut Random, key: u8) -> Node {
    let value = match random.below(3) {
        0 => 10_u32.pow(random.below(10) as u32) - random.below(2) as u32,
        _ => value(random),
    };
    let links = links(random);
    Node { key, value, links }
}

/// Up to eight, of one digit or two or both.
fn links(random: &mut Random) -> Vec<u8> {
    let count = random.choose(&[0, 0, 1, 2, 3, 7, LIST, LIST]);
    let (least, most) = random.choose(&[(1, 9), (10, 64), (1, 64), (1, 2), (64, 64)]);
    let link = |_| (least + random.below(most - least + 1)) as u8;
    (0..count).map(link).collect()
}

/// Where a field stands in the page, and whether its text is set right.
#[derive(Clone, Copy)]
struct Field {
    start: usize,
    end: usize,
    right: bool,
}

const COUNT: Field = Field {
    start: 5,
    end: 37,
    right: true,
};

impl Field {
    fn key(line: usize) -> Field {
        Field {
            start: LINE_BYTES * line,
            end: LINE_BYTES * line + 2,
            right: true,
        }
    }

    fn value(line: usize) -> Field {
        Field {
            start: LINE_BYTES * line + 3,
            end: LINE_BYTES * line + 13,
            right: true,
        }
    }

    fn links(line: usize) -> Field {
        Field {
            start: LINE_BYTES * line + 14,
            end: LINE_BYTES * line + 37,
            right: false,
        }
    }

    fn width(self) -> usize {
        self.end - self.start
    }

    fn text(self, page: &[u8]) -> Vec<u8> {
        page[self.start..self.end].trim_ascii().to_vec()
    }

    /// Sets a text to the field's side. What has no room is cut off.
    fn put(self, page: &mut [u8], text: &[u8]) {
        let text = &text[..text.len().min(self.width())];
        let before = if self.right {
            self.width() - text.len()
        } else {
            0
        };
        self.put_after(page, before, text);
    }

    fn put_after(self, page: &mut [u8], blanks: usize, text: &[u8]) {
        let field = &mut page[self.start..self.end];
        field.fill(b' ');
        field[blanks..][..text.len()].copy_from_slice(text);
    }
}

/// The number of some node's line, if there are nodes.
fn node_line(random: &mut Random, page: &[u8]) -> Option<usize> {
    let nodes = (page.len() / LINE_BYTES - 1) as u64;
    (nodes > 0).then(|| 1 + random.below(nodes) as usize)
}

fn any_field(random: &mut Random, page: &[u8]) -> Field {
    match node_line(random, page) {
        Some(line) if !random.once_in(6) => {
            random.choose(&[Field::key, Field::value, Field::links])(line)
        }
        _ => COUNT,
    }
}

fn place(random: &mut Random, page: &[u8]) -> usize {
    random.below(page.len() as u64) as usize
}

fn bytes(random: &mut Random, page: &mut [u8]) {
    if page.is_empty() {
        return;
    }
    for _ in 0..=random.below(2) {
        let place = place(random, page);
        page[place] = match random.below(4) {
            0 => random.bits() as u8,
            _ => random.choose(b"0123456789, \n\t\r+-\0n\xff"),
        };
    }
}

/// Mostly a digit of a node's line, which may well be read as another.
fn digit(random: &mut Random, page: &mut [u8]) {
    let start = if random.once_in(6) { 0 } else { LINE_BYTES };
    let digits = (start..page.len()).filter(|&place| page[place].is_ascii_digit());
    let digits: Vec<usize> = digits.collect();
    if !digits.is_empty() {
        page[random.choose(&digits)] = random.choose(b"0123456789");
    }
}

/// At any place, or near a line's end.
fn cut(random: &mut Random, page: &mut Vec<u8>) {
    let lines = page.len() / LINE_BYTES;
    let line = LINE_BYTES * random.below(lines as u64) as usize;
    let length = match random.below(5) {
        0 => place(random, page),
        1 => page.len() - 1,
        2 => line.saturating_sub(1),
        3 => line + 1,
        _ => line,
    };
    page.truncate(length);
}

fn longer(random: &mut Random, page: &mut Vec<u8>) {
    let copied = match random.below(3) {
        0 => page.clone(),
        1 => page[page.len() - LINE_BYTES..].to_vec(),
        _ => page[..LINE_BYTES].to_vec(),
    };
    let mut blank = vec![b' '; LINE_BYTES - 1];
    blank.push(b'\n');
    let more: &[u8] = match random.below(8) {
        0 => b"\n",
        1 => b" ",
        2 => b"\0",
        3 => b"\r\n",
        4 => &blank,
        5 => &blank[1..],
        _ => &copied,
    };
    page.extend_from_slice(more);
}

fn shift(random: &mut Random, page: &mut Vec<u8>) {
    let place = place(random, page);
    if random.once_in(2) {
        page.remove(place);
    } else {
        page.insert(place, random.choose(b" 0123456789,\n"));
    }
}

fn count(random: &mut Random, page: &mut [u8], nodes: u64) {
    let other = match random.below(6) {
        0 => nodes + (1 << 8),
        1 => nodes + (1 << 32),
        2 | 3 => nodes + 1,
        _ => nodes.saturating_sub(1),
    };
    COUNT.put(page, other.to_string().as_bytes());
}

/// Some blanks of the field change their side.
fn side(random: &mut Random, page: &mut [u8]) {
    let field = any_field(random, page);
    let text = field.text(page);
    let blanks = field.width() - text.len();
    let moved = match random.below(3) {
        0 => blanks,
        1 => blanks.min(1),
        _ => random.below(blanks as u64 + 1) as usize,
    };
    let before = if field.right { blanks - moved } else { moved };
    field.put_after(page, before, &text);
}

/// Puts one of these bytes before a field's text, or in the place of its first.
fn begin(random: &mut Random, page: &mut [u8], bytes: &[u8]) {
    let field = any_field(random, page);
    let mut text = field.text(page);
    let byte = random.choose(bytes);
    if text.len() < field.width() {
        text.insert(0, byte);
    } else {
        text[0] = byte;
    }
    field.put(page, &text);
}

/// Puts a blank between two bytes of a field's text, or in the place of one.
fn blank_inside(random: &mut Random, page: &mut [u8]) {
    let field = any_field(random, page);
    let mut text = field.text(page);
    if text.len() < 2 {
        text = b"12".to_vec();
    }
    let inner = (text.len() as u64 - 2).max(1);
    let place = 1 + random.below(inner) as usize;
    if text.len() < field.width() {
        text.insert(place, b' ');
    } else {
        text[place] = b' ';
    }
    field.put(page, &text);
}

/// Keys and values on both sides of their limits.
fn limit(random: &mut Random, page: &mut [u8]) {
    const KEYS: [&str; 7] = ["0", "1", "64", "65", "66", "99", "65"];
    const VALUES: [&str; 6] = [
        "0",
        "4294967295",
        "4294967296",
        "4294967297",
        "4300000000",
        "9999999999",
    ];
    let Some(line) = node_line(random, page) else {
        return;
    };
    match random.below(3) {
        0 => Field::key(line).put(page, random.choose(&KEYS).as_bytes()),
        1 => Field::value(line).put(page, random.choose(&VALUES).as_bytes()),
        _ => {
            let key = random.choose(&["100", "256", "4294967297", KEYS[0], KEYS[2], KEYS[3]]);
            let place = random.below(LIST as u64) as usize;
            change_links(page, line, |links| match links.get_mut(place) {
                Some(link) => *link = key.as_bytes().to_vec(),
                None => links.push(key.as_bytes().to_vec()),
            });
        }
    }
}

/// Changes the list of a line, whose links are texts here.
fn change_links(page: &mut [u8], line: usize, change: impl FnOnce(&mut Vec<Vec<u8>>)) {
    let field = Field::links(line);
    let text = field.text(page);
    let parts = text.split(|&byte| byte == b',').map(<[u8]>::to_vec);
    let mut links: Vec<Vec<u8>> = parts.filter(|part| !part.is_empty()).collect();
    change(&mut links);
    field.put(page, &links.join(&b','));
}

/// Links of one digit, and one or two of two, so that nine have room.
fn ninth_link(random: &mut Random, page: &mut [u8]) {
    let Some(line) = node_line(random, page) else {
        return;
    };
    let count = random.choose(&[LIST, LIST + 1, LIST + 1, LIST + 2]);
    change_links(page, line, |links| {
        let digit = |_| vec![random.choose(b"123456789")];
        *links = (0..count).map(digit).collect();
        if random.once_in(2) {
            links[0] = b"64".to_vec();
            links[count - 1] = b"10".to_vec();
        }
    });
}

/// An empty text stands among the links, or takes the place of one.
fn comma(random: &mut Random, page: &mut [u8]) {
    let Some(line) = node_line(random, page) else {
        return;
    };
    change_links(page, line, |links| {
        if links.is_empty() {
            links.push(b"1".to_vec());
        }
        let place = random.below(links.len() as u64 + 1) as usize;
        match links.get_mut(place) {
            Some(link) if random.once_in(3) => link.clear(),
            _ => links.insert(place, Vec::new()),
        }
    });
}

fn key_twice(random: &mut Random, page: &mut [u8]) {
    let (Some(from), Some(to)) = (node_line(random, page), node_line(random, page)) else {
        return;
    };
    let key = Field::key(from).text(page);
    Field::key(to).put(page, &key);
}

/// All keys, and one of them again at any place; the count is right, or 64.
fn nodes_above(random: &mut Random) -> Vec<u8> {
    let mut keys = some_keys(random, usize::from(KEYS));
    let again = random.choose(&keys);
    keys.insert(random.below(u64::from(KEYS) + 1) as usize, again);
    let nodes: Vec<Node> = keys.into_iter().map(|key| node(random, key)).collect();
    let mut page = page_of(nodes.iter()).into_bytes();
    if random.once_in(4) {
        COUNT.put(&mut page, b"64");
    }
    page
}

/// Column 3 or 14 of a node's line, or one before the count.
fn between(random: &mut Random, page: &mut [u8]) {
    let place = match node_line(random, page) {
        Some(line) if !random.once_in(4) => LINE_BYTES * line + random.choose(&[2, 13]),
        _ => 5 + random.below(30) as usize,
    };
    page[place] = random.choose(b"0123456789,\t\n=+");
}

fn newline(random: &mut Random, page: &mut Vec<u8>) {
    let lines = page.len() / LINE_BYTES;
    let end = LINE_BYTES * (1 + random.below(lines as u64) as usize) - 1;
    match random.below(5) {
        0 => page[end] = b' ',
        1 => page[end] = b'\r',
        2 => page[end - 1] = b'\n',
        3 => page.insert(end, b'\r'),
        _ => page.swap(end - 1, end),
    }
}

/// The head line is among them.
fn lines(random: &mut Random, page: &mut Vec<u8>) {
    let mut lines: Vec<Vec<u8>> = page.chunks(LINE_BYTES).map(<[u8]>::to_vec).collect();
    let count = lines.len() as u64;
    let [one, other] = [0, 1].map(|_| random.below(count) as usize);
    match random.below(5) {
        0 => {
            lines.remove(one);
        }
        1 => lines.insert(other, lines[one].clone()),
        2 => lines[other] = lines[one].clone(),
        _ => lines.swap(one, other),
    }
    *page = lines.concat();
}

fn word(random: &mut Random, page: &mut [u8]) {
    const WORDS: [[u8; 5]; 8] = [
        *b"Nodes", *b"NODES", *b"node ", *b" node", *b"keys ", *b"     ", *b"nodes", *b"node=",
    ];
    page[..5].copy_from_slice(&random.choose(&WORDS));
}

fn other_blank(random: &mut Random, page: &mut [u8]) {
    let blanks = (0..page.len()).filter(|&place| page[place] == b' ');
    let blanks: Vec<usize> = blanks.collect();
    page[random.choose(&blanks)] = random.choose(b"\t\0\r\x0B\x0C\xA0_.");
}
