//! The second implementation of the deferred body graph.
//!
//! Written from the rules (docs/RULES.md), with the decided points of docs/DECISIONS.md
//! where they leave a choice and the tables of docs/IMAGE.md, it shares no code with the
//! product: sessions here are nested lists, with no image underneath. The product is
//! compared with it, answer by answer and byte by byte.

pub mod host;
pub mod image;
pub mod line;
pub mod load;
pub mod meaning;
pub mod page;
pub mod print;
pub mod program;
pub mod random;
pub mod refusal;
pub mod samples;
pub mod session;
mod steps;

pub use image::{image, session_of, valid, IMAGE_BYTES};
pub use line::{line_at, read_call, Call, To};
pub use meaning::meaning;
pub use refusal::Refusal;
pub use session::{Act, Node, Operation, Outcome, Session, Station, Targets, Unit, Waiting};

/// The panel's eight counts: admit, realise, move, finish, join, split, swap, fuse.
pub type Tally = [u32; 8];
