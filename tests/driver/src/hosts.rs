//! The two implementations of the host's functions, side by side: the product, which is reached through
//! its C interface and by nothing else, and the second one.

use second::host;
pub use second::{Tally, IMAGE_BYTES};

/// As in cg.h: room for any result line, for any listing, for any load, for any page and for the nodes of
/// any page.
pub const RESULT_BYTES: usize = 58;
pub const LISTING_BYTES: usize = 7189;
pub const LOAD_BYTES: usize = 3584;
pub const PAGE_BYTES: usize = 2470;
pub const NODES_BYTES: usize = 3456;

#[derive(Clone, Copy, Debug, PartialEq, Eq, PartialOrd, Ord)]
pub enum Entry {
    Open,
    Call,
    Step,
    Claim,
    List,
    Page,
}

impl Entry {
    pub const ALL: [Entry; 6] = [
        Entry::Open,
        Entry::Call,
        Entry::Step,
        Entry::Claim,
        Entry::List,
        Entry::Page,
    ];
    /// Those that read a line.
    pub const READERS: [Entry; 3] = [Entry::Call, Entry::Step, Entry::Claim];

    /// The entry that cgrun would give a line to.
    pub fn of(line: &[u8]) -> Entry {
        if line.starts_with(b"step=") {
            Entry::Step
        } else if line.starts_with(b"claim=") {
            Entry::Claim
        } else {
            Entry::Call
        }
    }
}

/// An implementation: each entry on lent bytes.
pub struct Host {
    open: fn(&mut [u8]) -> i64,
    call: fn(&mut [u8], &[u8], usize) -> i64,
    step: fn(&mut [u8], &[u8], usize, &mut Tally) -> i64,
    claim: fn(&mut [u8], &[u8], usize, &mut [u8]) -> i64,
    list: fn(&[u8], &mut [u8]) -> i64,
    page: fn(&[u8], &mut [u8]) -> i64,
    load: fn(u32, u32, &mut [u8]) -> i64,
    page_nodes: fn(&[u8], &mut [u8]) -> i64,
}

pub const PRODUCT: Host = Host {
    open: product::open,
    call: product::call,
    step: product::step,
    claim: product::claim,
    list: product::list,
    page: product::page,
    load: product::load,
    page_nodes: product::page_nodes,
};

pub const SECOND: Host = Host {
    open: host::open,
    call: host::call,
    step: host::step,
    claim: host::claim,
    list: host::list,
    page: host::page,
    load: host::load,
    page_nodes: host::page_nodes,
};

impl Host {
    /// Calls an entry with what it takes of all this.
    pub fn serve(
        &self,
        entry: Entry,
        image: &mut [u8],
        (frame, at): (&[u8], usize),
        tally: &mut Tally,
        out: &mut [u8],
    ) -> i64 {
        match entry {
            Entry::Open => (self.open)(image),
            Entry::Call => (self.call)(image, frame, at),
            Entry::Step => (self.step)(image, frame, at, tally),
            Entry::Claim => (self.claim)(image, frame, at, out),
            Entry::List => (self.list)(image, out),
            Entry::Page => (self.page)(image, out),
        }
    }

    /// Makes a load. It has no image, and so is not an Entry.
    pub fn load(&self, seed: u32, count: u32, out: &mut [u8]) -> i64 {
        (self.load)(seed, count, out)
    }

    /// Reads a page back. It has no image either.
    pub fn page_nodes(&self, page: &[u8], out: &mut [u8]) -> i64 {
        (self.page_nodes)(page, out)
    }
}

/// A Tally has the counts of `cg_tally` in their order.
mod product {
    use super::Tally;

    extern "C" {
        fn cg_open(image: *mut u8, image_len: usize) -> i64;
        fn cg_call(
            image: *mut u8,
            image_len: usize,
            frame: *const u8,
            frame_len: usize,
            at: usize,
        ) -> i64;
        fn cg_step(
            image: *mut u8,
            image_len: usize,
            frame: *const u8,
            frame_len: usize,
            at: usize,
            tally: *mut Tally,
        ) -> i64;
        fn cg_claim(
            image: *mut u8,
            image_len: usize,
            frame: *const u8,
            frame_len: usize,
            at: usize,
            out: *mut u8,
            out_len: usize,
        ) -> i64;
        fn cg_list(image: *const u8, image_len: usize, out: *mut u8, out_len: usize) -> i64;
        fn cg_page(image: *const u8, image_len: usize, out: *mut u8, out_len: usize) -> i64;
        fn cg_load(seed: u32, count: u32, out: *mut u8, out_len: usize) -> i64;
        fn cg_page_nodes(page: *const u8, page_len: usize, out: *mut u8, out_len: usize) -> i64;
    }

    pub fn open(image: &mut [u8]) -> i64 {
        unsafe { cg_open(image.as_mut_ptr(), image.len()) }
    }

    pub fn call(image: &mut [u8], frame: &[u8], at: usize) -> i64 {
        let (bytes, length) = (image.as_mut_ptr(), image.len());
        unsafe { cg_call(bytes, length, frame.as_ptr(), frame.len(), at) }
    }

    pub fn step(image: &mut [u8], frame: &[u8], at: usize, tally: &mut Tally) -> i64 {
        let (bytes, length) = (image.as_mut_ptr(), image.len());
        unsafe { cg_step(bytes, length, frame.as_ptr(), frame.len(), at, tally) }
    }

    pub fn claim(image: &mut [u8], frame: &[u8], at: usize, out: &mut [u8]) -> i64 {
        let (bytes, length) = (image.as_mut_ptr(), image.len());
        let (room, room_len) = (out.as_mut_ptr(), out.len());
        unsafe {
            cg_claim(
                bytes,
                length,
                frame.as_ptr(),
                frame.len(),
                at,
                room,
                room_len,
            )
        }
    }

    pub fn list(image: &[u8], out: &mut [u8]) -> i64 {
        unsafe { cg_list(image.as_ptr(), image.len(), out.as_mut_ptr(), out.len()) }
    }

    pub fn page(image: &[u8], out: &mut [u8]) -> i64 {
        unsafe { cg_page(image.as_ptr(), image.len(), out.as_mut_ptr(), out.len()) }
    }

    pub fn load(seed: u32, count: u32, out: &mut [u8]) -> i64 {
        unsafe { cg_load(seed, count, out.as_mut_ptr(), out.len()) }
    }

    pub fn page_nodes(page: &[u8], out: &mut [u8]) -> i64 {
        unsafe { cg_page_nodes(page.as_ptr(), page.len(), out.as_mut_ptr(), out.len()) }
    }
}
