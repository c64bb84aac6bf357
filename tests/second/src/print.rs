//! What is written: call lines, result lines and the listing.

use crate::line::{Call, To};
use crate::refusal::Refusal;
use crate::session::{Act, Node, Outcome, Session};

/// A call's line, with its newline.
pub fn call_line(call: &Call) -> String {
    match call {
        Call::Add { value } => format!("call=add value={value}\n"),
        Call::Visit { act, to } => format!("call={} to={}\n", act_text(act), to_text(to)),
        Call::Unmap { a, b, to } => format!("call=unmap a={a} b={b} to={}\n", to_text(to)),
    }
}

/// A result's line, with its newline.
pub fn result_line(label: u16, outcome: &Outcome) -> String {
    let Outcome { value, left } = outcome;
    format!("label={label} value={value} left={}\n", keys(left))
}

/// The head, the nodes in station order and the results by label.
pub fn listing(session: &Session) -> String {
    let mut text = head_line(session);
    for station in &session.stations {
        text.push_str(&node_line(&station.node));
    }
    for (&label, outcome) in &session.results {
        text.push_str(&result_line(label, outcome));
    }
    text
}

/// Writes all of the text or none: the output must have room for it, and what
/// stands after it stays.
pub fn write(text: &str, out: &mut [u8]) -> Result<i64, Refusal> {
    let room = out.get_mut(..text.len()).ok_or(Refusal::NoRoom)?;
    room.copy_from_slice(text.as_bytes());
    Ok(text.len() as i64)
}

fn head_line(session: &Session) -> String {
    let nodes = session.stations.len();
    let results = session.results.len();
    let pending = session.pending();
    format!("nodes={nodes} results={results} pending={pending}\n")
}

/// A node's line, with its newline.
pub fn node_line(node: &Node) -> String {
    let Node { key, value, links } = node;
    format!("key={key} value={value} links={}\n", keys(links))
}

/// An act's word and fields, up to its targets. What it holds is its `start`.
fn act_text(act: &Act) -> String {
    match act {
        Act::Map { a, b } => format!("map a={a} b={b}"),
        Act::Link { key, .. } => format!("link key={key}"),
        Act::Unlink { key, .. } => format!("unlink key={key}"),
        Act::Sum { held } => format!("sum start={held}"),
        Act::Top { held } => format!("top start={held}"),
        Act::Pick { held } => format!("pick start={held}"),
        Act::Near { key, held } => format!("near key={key} start={held}"),
    }
}

fn to_text(to: &To) -> String {
    match to {
        To::Keys(targets) => keys(targets),
        To::All => String::from("all"),
    }
}

/// Keys joined by commas.
pub fn keys(keys: &[u8]) -> String {
    let keys: Vec<String> = keys.iter().map(u8::to_string).collect();
    keys.join(",")
}
