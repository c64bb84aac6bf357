//! A page that is read back. It lends no image, so no copy's time is to be taken off.

use std::hint::black_box;

use hosts::{Entry, Host, NODES_BYTES, PAGE_BYTES, PRODUCT};

use crate::scene::Desk;
use crate::{stack, timing};

/// The bytes of a line, and of the key that it begins with.
const LINE: usize = 38;
const KEY: usize = 2;
/// How many nodes the page has: as many as there can be. Each has so many links, as many as it can have.
pub const NODES: u32 = 64;
pub const LINKS: u32 = 8;

/// A page that is to be read back, and the room for its nodes.
pub struct Page {
    pub name: &'static str,
    page: Vec<u8>,
    room: usize,
}

pub fn pages() -> [Page; 3] {
    let page = written();
    let mut repeated = page.clone();
    let last = repeated.len() - LINE;
    repeated.copy_within(last..last + KEY, LINE);
    [
        to_read("page nodes", page.clone(), NODES_BYTES, 0),
        to_read("page nodes, 34", page, 0, 34),
        to_read("page nodes, 35", repeated, NODES_BYTES, 35),
    ]
}

/// The page of a session, as the product writes it.
fn written() -> Vec<u8> {
    let mut desk = Desk::open();
    desk.add_nodes(NODES, LINKS);
    let mut page = vec![0; PAGE_BYTES];
    let nothing = (&[][..], 0);
    let length = PRODUCT.serve(
        Entry::Page,
        &mut desk.image,
        nothing,
        &mut [0; 8],
        &mut page,
    );
    assert_eq!(length, PAGE_BYTES as i64);
    page
}

fn to_read(name: &'static str, page: Vec<u8>, room: usize, refusal: i64) -> Page {
    let page = Page { name, page, room };
    let answer = page.serve(&PRODUCT, &mut [0; NODES_BYTES]);
    assert_eq!(-answer.min(0), refusal, "{name}");
    page
}

impl Page {
    pub fn ns(&self, host: &Host) -> f64 {
        let mut out = [0; NODES_BYTES];
        timing::best_ns(|| {
            black_box(self.serve(host, &mut out));
        })
    }

    /// How many nodes it has, if it is not refused.
    pub fn nodes(&self) -> Option<f64> {
        let read = self.serve(&PRODUCT, &mut [0; NODES_BYTES]) > 0;
        read.then_some(f64::from(NODES))
    }

    pub fn stack_bytes(&self) -> usize {
        let mut out = [0; NODES_BYTES];
        stack::used(|| {
            self.serve(&PRODUCT, &mut out);
        })
    }

    fn serve(&self, host: &Host, out: &mut [u8]) -> i64 {
        host.page_nodes(black_box(&self.page), &mut out[..self.room])
    }
}
