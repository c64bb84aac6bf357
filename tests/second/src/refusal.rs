//! Who can be turned down, and why.

/// A refusal, with its number in the rules (docs/RULES.md) as its discriminant.
#[derive(Clone, Copy, Debug, PartialEq, Eq)]
pub enum Refusal {
    /// An image of another length.
    ImageLength = 1,
    /// Bytes that are not the image of a session.
    NotASession = 2,
    /// Not one of the forms, or 256 bytes or more.
    Form = 10,
    /// A key outside 1 to 64.
    KeyRange = 11,
    /// More than eight targets, or not strictly rising.
    Targets = 12,
    /// An add after 64.
    AddsSpent = 13,
    /// A call while 64 are live.
    LiveFull = 14,
    /// A call after 65,535.
    LabelsSpent = 15,
    /// No node with that key.
    NoNode = 20,
    /// No waiting call, or no unit where one is needed.
    NoUnit = 21,
    /// The step isn't allowed there.
    NotAllowed = 22,
    /// A label never given.
    NeverGiven = 30,
    /// Still pending.
    Pending = 31,
    /// Already claimed.
    Claimed = 32,
    /// The output is too short.
    NoRoom = 33,
    /// The output is shorter than the page, or than the lines of its nodes.
    PageRoom = 34,
    /// Bytes that are not a page of nodes.
    BadPage = 35,
    /// An unmap of an even a, which no map undoes.
    NoInverse = 40,
    /// A load of more than 64 lines.
    LoadCount = 46,
    /// The output is shorter than the load's lines.
    LoadRoom = 47,
}

impl Refusal {
    /// What an entry returns for it: the number negated.
    pub fn answer(self) -> i64 {
        -(self as i64)
    }
}

/// The one number an entry returns, for acceptance and refusal alike.
pub fn answer(outcome: Result<i64, Refusal>) -> i64 {
    outcome.unwrap_or_else(Refusal::answer)
}
