//! What an entry is lent, and one call of it compared.

use std::cell::RefCell;
use std::collections::BTreeSet;
use std::ops::Range;

use hosts::{Entry, Host, Tally, PRODUCT, SECOND};
use second::line_at;

/// Bytes before, between and after what is lent: nobody may write them. Their number is odd, so that
/// no image stands at a place that would suit a machine word.
const MARGIN: usize = 33;

/// What was met so far, so that a run can say that it left nothing out.
#[derive(Default)]
pub struct Met {
    /// Entries with their answers; a label or a length stands as 1.
    pub answers: BTreeSet<(Entry, i64)>,
    /// The counts that rose.
    pub kinds: BTreeSet<usize>,
    /// The answers to loads; a length above 0 stands as 1.
    pub loads: BTreeSet<i64>,
    /// The answers to pages that were to be read back; a length above 0 stands as 1.
    pub page_nodes: BTreeSet<i64>,
}

thread_local! {
    pub static MET: RefCell<Met> = RefCell::default();
}

/// An image, or a page in its place, an output and a tally. They stand in one block, so that comparing
/// blocks also compares the bytes around them.
#[derive(Clone, PartialEq)]
pub struct Lent {
    bytes: Vec<u8>,
    image_len: usize,
    out_len: usize,
    tally: Tally,
}

impl Lent {
    pub fn new(image: &[u8], out_len: usize, tally: Tally) -> Lent {
        let mut bytes = vec![b'#'; 3 * MARGIN + image.len() + out_len];
        bytes[MARGIN..][..image.len()].copy_from_slice(image);
        Lent {
            bytes,
            image_len: image.len(),
            out_len,
            tally,
        }
    }

    /// The same with another output.
    pub fn with_room(&self, out_len: usize) -> Lent {
        let image = &self.bytes[MARGIN..][..self.image_len];
        Lent::new(image, out_len, self.tally)
    }

    /// The same with other counts.
    pub fn with_tally(&self, tally: Tally) -> Lent {
        Lent {
            tally,
            ..self.clone()
        }
    }

    /// Has both serve, compares everything that they answer and leave, and gives the answer.
    pub fn serve(&mut self, entry: Entry, frame: &[u8], at: usize) -> Result<i64, String> {
        let before = self.tally;
        let told = self.compare(|lent, host| lent.served_by(host, entry, frame, at));
        let answer = told.map_err(|told| {
            let line = line_at(frame, at).escape_ascii();
            format!("{entry:?} of '{line}' {told}")
        })?;
        MET.with_borrow_mut(|met| {
            let rose = |kind: &usize| self.tally[*kind] != before[*kind];
            met.kinds.extend((0..8).filter(rose));
            met.answers.insert((entry, answer.min(1)));
        });
        Ok(answer)
    }

    /// The same, where the answer is known.
    pub fn expect(
        &mut self,
        due: i64,
        entry: Entry,
        frame: &[u8],
        at: usize,
    ) -> Result<(), String> {
        match self.serve(entry, frame, at)? {
            answer if answer == due => Ok(()),
            answer => Err(format!("{entry:?}: both answer {answer}, expected {due}")),
        }
    }

    /// Has both make a load, compares in the same way, and gives the answer.
    pub fn load(&mut self, seed: u32, count: u32) -> Result<i64, String> {
        let told = self.compare(|lent, host| {
            let out = lent.out();
            host.load(seed, count, &mut lent.bytes[out])
        });
        let answer = told.map_err(|told| {
            let room = self.out_len;
            format!("Load of seed {seed}, count {count} and room {room} {told}")
        })?;
        MET.with_borrow_mut(|met| met.loads.insert(answer.min(1)));
        Ok(answer)
    }

    /// Has both read the page that stands in the image's place, compares in the same way, and gives the
    /// answer.
    pub fn page_nodes(&mut self) -> Result<i64, String> {
        let told = self.compare(|lent, host| {
            let (page, rest) = lent.bytes[MARGIN..].split_at_mut(lent.image_len);
            host.page_nodes(page, &mut rest[MARGIN..][..lent.out_len])
        });
        let answer = told.map_err(|told| {
            let page = self.bytes[MARGIN..][..self.image_len].escape_ascii();
            format!("PageNodes of '{page}' with room {} {told}", self.out_len)
        })?;
        MET.with_borrow_mut(|met| met.page_nodes.insert(answer.min(1)));
        Ok(answer)
    }

    pub fn output(&self) -> &[u8] {
        &self.bytes[self.out()]
    }

    pub fn expect_tally(&self, due: Tally) -> Result<(), String> {
        match self.tally {
            tally if tally == due => Ok(()),
            tally => Err(format!("both count {tally:?}, expected {due:?}")),
        }
    }

    /// Has both do the work, and gives the answer, or else in what they differ.
    fn compare(&mut self, work: impl Fn(&mut Lent, &Host) -> i64) -> Result<i64, String> {
        let before = self.clone();
        let mut expected = self.clone();
        let answer = work(self, &PRODUCT);
        let due = work(&mut expected, &SECOND);
        if answer != due {
            Err(format!("answers {answer}, expected {due}"))
        } else if let Some(part) = self.differs(&expected) {
            Err(format!("answers {answer}, and leaves another {part}"))
        } else if answer < 0 && *self != before {
            Err(format!("is refused with {answer}, and changes something"))
        } else {
            Ok(answer)
        }
    }

    /// Where the output stands in the block.
    fn out(&self) -> Range<usize> {
        let start = 2 * MARGIN + self.image_len;
        start..start + self.out_len
    }

    fn differs(&self, other: &Lent) -> Option<String> {
        let mut pairs = self.bytes.iter().zip(&other.bytes);
        let (image, out) = (MARGIN, self.out());
        match pairs.position(|(a, b)| a != b) {
            Some(place) if out.contains(&place) => {
                Some(format!("output at byte {}", place - out.start))
            }
            Some(place) if place >= image && place < image + self.image_len => {
                Some(format!("image or page at byte {}", place - image))
            }
            Some(_) => Some(String::from("byte beside what was lent")),
            None if self.tally != other.tally => {
                Some(format!("tally, {:?} for {:?}", self.tally, other.tally))
            }
            None => None,
        }
    }

    fn served_by(&mut self, host: &Host, entry: Entry, frame: &[u8], at: usize) -> i64 {
        let (image, rest) = self.bytes[MARGIN..].split_at_mut(self.image_len);
        let out = &mut rest[MARGIN..][..self.out_len];
        host.serve(entry, image, (frame, at), &mut self.tally, out)
    }
}
