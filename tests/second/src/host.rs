//! The host's functions, on lent bytes: what `cg_open` and the others answer, and
//! what they leave.
//!
//! Each but `load` and `page_nodes` takes the session out of the image. Those that change
//! it serve it and write its image back; every refusal comes before that writing.

use crate::image::{image, session_of, IMAGE_BYTES};
use crate::line::line_at;
use crate::load::lines;
use crate::page;
use crate::refusal::{answer, Refusal};
use crate::session::Session;
use crate::Tally;

/// Writes the fresh session's image.
pub fn open(bytes: &mut [u8]) -> i64 {
    if bytes.len() != IMAGE_BYTES {
        return Refusal::ImageLength.answer();
    }
    bytes.copy_from_slice(&image(&Session::open()));
    0
}

/// Serves the call line at a place of the frame.
pub fn call(bytes: &mut [u8], frame: &[u8], at: usize) -> i64 {
    serve(bytes, |session| session.call(line_at(frame, at)))
}

/// Serves the step line at a place of the frame.
pub fn step(bytes: &mut [u8], frame: &[u8], at: usize, tally: &mut Tally) -> i64 {
    serve(bytes, |session| session.step(line_at(frame, at), tally))
}

/// Serves the claim line at a place of the frame.
pub fn claim(bytes: &mut [u8], frame: &[u8], at: usize, out: &mut [u8]) -> i64 {
    serve(bytes, |session| session.claim(line_at(frame, at), out))
}

/// Writes the listing.
pub fn list(bytes: &[u8], out: &mut [u8]) -> i64 {
    match session_in(bytes) {
        Ok(session) => session.list(out),
        Err(refusal) => refusal.answer(),
    }
}

/// Writes the lines of a load, by its seed: 46, then 47.
pub fn load(seed: u32, count: u32, out: &mut [u8]) -> i64 {
    answer(lines(seed, count).and_then(|lines| write(&lines, out, Refusal::LoadRoom)))
}

/// Writes the page of the session's nodes: 1, 2, then 34.
pub fn page(bytes: &[u8], out: &mut [u8]) -> i64 {
    let page = session_in(bytes).map(|session| page::page(&session));
    answer(page.and_then(|page| write(page.as_bytes(), out, Refusal::PageRoom)))
}

/// Writes the `key=` lines of a page's nodes: 35, then 34.
pub fn page_nodes(page: &[u8], out: &mut [u8]) -> i64 {
    let lines = page::lines(page);
    answer(lines.and_then(|lines| write(lines.as_bytes(), out, Refusal::PageRoom)))
}

/// Writes all of the text or none, which is this refusal; what stands after it stays.
fn write(text: &[u8], out: &mut [u8], refusal: Refusal) -> Result<i64, Refusal> {
    let room = out.get_mut(..text.len()).ok_or(refusal)?;
    room.copy_from_slice(text);
    Ok(text.len() as i64)
}

fn session_in(bytes: &[u8]) -> Result<Session, Refusal> {
    if bytes.len() != IMAGE_BYTES {
        return Err(Refusal::ImageLength);
    }
    session_of(bytes).ok_or(Refusal::NotASession)
}

fn serve(bytes: &mut [u8], entry: impl FnOnce(&mut Session) -> i64) -> i64 {
    match session_in(bytes) {
        Ok(mut session) => {
            let answer = entry(&mut session);
            if answer >= 0 {
                bytes.copy_from_slice(&image(&session));
            }
            answer
        }
        Err(refusal) => refusal.answer(),
    }
}
