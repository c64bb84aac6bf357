//! The page of S-1: the graph as it is printed beside the panel, and what a page is read
//! back as.
//!
//! Writing lays texts into columns, and reading takes columns apart. Neither uses the other.

use crate::line::{key, read_number, LIST};
use crate::print::{keys, node_line};
use crate::refusal::Refusal;
use crate::session::{Node, Session};

/// "Each line ends in a newline, 38 bytes in all."
pub const LINE_BYTES: usize = 38;
/// What the head line has at its left.
const HEAD: &[u8] = b"nodes";

/// The page of a session's nodes.
pub fn page(session: &Session) -> String {
    page_of(session.stations.iter().map(|station| &station.node))
}

/// The page of any nodes: the head line, "then a line for each node in station order".
pub fn page_of<'a>(nodes: impl ExactSizeIterator<Item = &'a Node>) -> String {
    let mut text = head_line(nodes.len());
    for node in nodes {
        text.push_str(&page_line(node));
    }
    text
}

/// "A head line of 37 columns, `nodes` left, its count right, blanks between."
fn head_line(count: usize) -> String {
    format!("nodes{count:>32}\n")
}

/// "Columns 1 to 2 hold the key and 4 to 13 the value, both set right; 15 to 37 hold the
/// links joined by commas, set left; all else is blank."
fn page_line(node: &Node) -> String {
    let Node { key, value, links } = node;
    let links = keys(links);
    format!("{key:>2} {value:>10} {links:<23}\n")
}

/// "A page reads back as the listing's `key=` lines for the same nodes."
pub fn lines(page: &[u8]) -> Result<String, Refusal> {
    let nodes = read(page).ok_or(Refusal::BadPage)?;
    Ok(nodes.iter().map(node_line).collect())
}

/// The nodes of a page, in its order. "Exactly those pages are read whose count is right,
/// whose keys are distinct and whose fields keep document 01's limits and way of writing
/// numbers." Distinct keys are at most 64, so the nodes are too.
pub fn read(page: &[u8]) -> Option<Vec<Node>> {
    let mut lines = page.chunks(LINE_BYTES);
    let count = read_head(columns(lines.next()?)?)?;
    let nodes = lines
        .map(|line| read_node(columns(line)?))
        .collect::<Option<Vec<Node>>>()?;
    (count as usize == nodes.len() && are_distinct(&nodes)).then_some(nodes)
}

/// The columns of a line, if it has all of its bytes and its newline.
fn columns(line: &[u8]) -> Option<&[u8; LINE_BYTES - 1]> {
    line.strip_suffix(b"\n")?.try_into().ok()
}

/// The count in the head line, after `nodes` and blanks.
fn read_head(columns: &[u8; LINE_BYTES - 1]) -> Option<u32> {
    read_number(set_right(columns.strip_prefix(HEAD)?))
}

fn read_node(columns: &[u8; LINE_BYTES - 1]) -> Option<Node> {
    let (key, value, links) = (&columns[..2], &columns[3..13], &columns[14..]);
    let node = Node {
        key: read_key(set_right(key))?,
        value: read_number(set_right(value))?,
        links: read_links(set_left(links))?,
    };
    (columns[2] == b' ' && columns[13] == b' ').then_some(node)
}

fn read_key(text: &[u8]) -> Option<u8> {
    key(read_number(text)?).ok()
}

/// At most eight keys, in any order and with repeats. A blank field has none.
fn read_links(text: &[u8]) -> Option<Vec<u8>> {
    if text.is_empty() {
        return Some(Vec::new());
    }
    let parts = text.split(|&byte| byte == b',');
    let links = parts.map(read_key).collect::<Option<Vec<u8>>>()?;
    (links.len() <= LIST).then_some(links)
}

/// What a field has after the blanks at its left.
fn set_right(mut field: &[u8]) -> &[u8] {
    while let [b' ', rest @ ..] = field {
        field = rest;
    }
    field
}

/// What a field has before the blanks at its right.
fn set_left(mut field: &[u8]) -> &[u8] {
    while let [rest @ .., b' '] = field {
        field = rest;
    }
    field
}

fn are_distinct(nodes: &[Node]) -> bool {
    let mut keys: Vec<u8> = nodes.iter().map(|node| node.key).collect();
    keys.sort_unstable();
    keys.windows(2).all(|pair| pair[0] != pair[1])
}
