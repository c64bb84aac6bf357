//! Lines: where they stand in a frame, and what they say.
//!
//! Reading has two halves. The forms come first and give numbers only, so that a
//! whole line is known to have its form (10) before a key (11), a list (12) or an
//! unmap's a (40) in it is judged.

use crate::refusal::Refusal;
use crate::session::Act;

/// A line has at most this many bytes, the newline not counted.
const LINE_BYTES: usize = 255;
/// Keys run from 1 to this.
pub const KEYS: u8 = 64;
/// A call names at most this many targets, and a node's list holds as many links.
pub const LIST: usize = 8;

/// The line at a place of a frame: up to the next newline or the frame's end. A
/// place past the end gives an empty line.
pub fn line_at(frame: &[u8], at: usize) -> &[u8] {
    let rest = frame.get(at..).unwrap_or(&[]);
    let end = rest.iter().position(|&byte| byte == b'\n');
    &rest[..end.unwrap_or(rest.len())]
}

/// A call as its line says it. The a of an unmap is odd.
#[derive(Clone, Debug, PartialEq, Eq)]
pub enum Call {
    Add { value: u32 },
    Visit { act: Act, to: To },
    Unmap { a: u32, b: u32, to: To },
}

/// The targets that a call names.
#[derive(Clone, Debug, PartialEq, Eq)]
pub enum To {
    /// At most eight keys, rising.
    Keys(Vec<u8>),
    /// Every node that there is.
    All,
}

/// A step line. A key is within 1 to 64; `unit` and `after` are as written.
#[derive(Clone, Copy, Debug, PartialEq, Eq)]
pub enum Step {
    Admit,
    Realise { at: u8 },
    Move { at: u8 },
    Finish { at: u8 },
    Join { at: u8, unit: u32 },
    Split { at: u8, unit: u32, after: u32 },
    Swap { at: u8, unit: u32 },
    Fuse { at: u8, unit: u32 },
    Drain,
}

/// Reads a call line: 10, then 11, then 12, then 40.
pub fn read_call(line: &[u8]) -> Result<Call, Refusal> {
    match call_form(line).ok_or(Refusal::Form)? {
        CallForm::Add { value } => Ok(Call::Add { value }),
        CallForm::Visit { verb, to } => {
            let act = verb.act()?;
            let to = to.judged()?;
            Ok(Call::Visit { act, to })
        }
        CallForm::Unmap { a, b, to } => {
            let to = to.judged()?;
            if a % 2 == 0 {
                return Err(Refusal::NoInverse);
            }
            Ok(Call::Unmap { a, b, to })
        }
    }
}

/// Reads a step line: 10, then 11.
pub fn read_step(line: &[u8]) -> Result<Step, Refusal> {
    Ok(match step_form(line).ok_or(Refusal::Form)? {
        StepForm::Admit => Step::Admit,
        StepForm::Realise(at) => Step::Realise { at: key(at)? },
        StepForm::Move(at) => Step::Move { at: key(at)? },
        StepForm::Finish(at) => Step::Finish { at: key(at)? },
        StepForm::Join(at, unit) => Step::Join { at: key(at)?, unit },
        StepForm::Split(at, unit, after) => Step::Split {
            at: key(at)?,
            unit,
            after,
        },
        StepForm::Swap(at, unit) => Step::Swap { at: key(at)?, unit },
        StepForm::Fuse(at, unit) => Step::Fuse { at: key(at)?, unit },
        StepForm::Drain => Step::Drain,
    })
}

/// Reads a claim line and gives its number, which need not be a label.
pub fn read_claim(line: &[u8]) -> Result<u32, Refusal> {
    claim_form(line).ok_or(Refusal::Form)
}

/// Reads a number that stands alone, written as in a line.
pub fn read_number(text: &[u8]) -> Option<u32> {
    let mut reader = Reader::new(text)?;
    let number = reader.number()?;
    reader.end(number)
}

/// A number as a key.
pub fn key(number: u32) -> Result<u8, Refusal> {
    match u8::try_from(number) {
        Ok(key) if (1..=KEYS).contains(&key) => Ok(key),
        _ => Err(Refusal::KeyRange),
    }
}

/// A list of numbers as targets. Every number is a key before the list is judged.
fn targets(numbers: &[u32]) -> Result<Vec<u8>, Refusal> {
    let keys = numbers
        .iter()
        .map(|&number| key(number))
        .collect::<Result<Vec<u8>, Refusal>>()?;
    if keys.len() <= LIST && strictly_rising(&keys) {
        Ok(keys)
    } else {
        Err(Refusal::Targets)
    }
}

/// Whether each member is above the one before.
pub fn strictly_rising(keys: &[u8]) -> bool {
    keys.windows(2).all(|pair| pair[0] < pair[1])
}

/// A call line that came apart, its keys still any numbers.
enum CallForm {
    Add { value: u32 },
    Visit { verb: Verb, to: ToForm },
    Unmap { a: u32, b: u32, to: ToForm },
}

enum ToForm {
    Numbers(Vec<u32>),
    All,
}

impl ToForm {
    fn judged(self) -> Result<To, Refusal> {
        match self {
            ToForm::Numbers(numbers) => targets(&numbers).map(To::Keys),
            ToForm::All => Ok(To::All),
        }
    }
}

enum Verb {
    Map { a: u32, b: u32 },
    Link { key: u32 },
    Unlink { key: u32 },
    Sum { start: u32 },
    Top { start: u32 },
    Pick { start: u32 },
    Near { key: u32, start: u32 },
}

impl Verb {
    /// The act, as it stands before the first node.
    fn act(self) -> Result<Act, Refusal> {
        Ok(match self {
            Verb::Map { a, b } => Act::Map { a, b },
            Verb::Link { key: number } => Act::Link {
                key: key(number)?,
                full: 0,
            },
            Verb::Unlink { key: number } => Act::Unlink {
                key: key(number)?,
                removed: 0,
            },
            Verb::Sum { start } => Act::Sum { held: start },
            Verb::Top { start } => Act::Top { held: start },
            Verb::Pick { start } => Act::Pick { held: start },
            Verb::Near { key: number, start } => Act::Near {
                key: key(number)?,
                held: start,
            },
        })
    }
}

fn call_form(line: &[u8]) -> Option<CallForm> {
    let mut reader = Reader::new(line)?;
    reader.text("call=")?;
    let form = match reader.word() {
        b"add" => CallForm::Add {
            value: reader.field(" value=")?,
        },
        b"unmap" => CallForm::Unmap {
            a: reader.field(" a=")?,
            b: reader.field(" b=")?,
            to: reader.targets()?,
        },
        word => CallForm::Visit {
            verb: verb(word, &mut reader)?,
            to: reader.targets()?,
        },
    };
    reader.end(form)
}

/// What a visiting call's word and the fields before its targets say.
fn verb(word: &[u8], reader: &mut Reader) -> Option<Verb> {
    Some(match word {
        b"map" => Verb::Map {
            a: reader.field(" a=")?,
            b: reader.field(" b=")?,
        },
        b"link" => Verb::Link {
            key: reader.field(" key=")?,
        },
        b"unlink" => Verb::Unlink {
            key: reader.field(" key=")?,
        },
        b"sum" => Verb::Sum {
            start: reader.field(" start=")?,
        },
        b"top" => Verb::Top {
            start: reader.field(" start=")?,
        },
        b"pick" => Verb::Pick {
            start: reader.field(" start=")?,
        },
        b"near" => Verb::Near {
            key: reader.field(" key=")?,
            start: reader.field(" start=")?,
        },
        _ => return None,
    })
}

/// A step line that came apart: `at`, then `unit`, then `after`, all any numbers.
enum StepForm {
    Admit,
    Realise(u32),
    Move(u32),
    Finish(u32),
    Join(u32, u32),
    Split(u32, u32, u32),
    Swap(u32, u32),
    Fuse(u32, u32),
    Drain,
}

fn step_form(line: &[u8]) -> Option<StepForm> {
    let mut reader = Reader::new(line)?;
    reader.text("step=")?;
    let form = match reader.word() {
        b"admit" => StepForm::Admit,
        b"realise" => StepForm::Realise(reader.field(" at=")?),
        b"move" => StepForm::Move(reader.field(" at=")?),
        b"finish" => StepForm::Finish(reader.field(" at=")?),
        b"join" => StepForm::Join(reader.field(" at=")?, reader.field(" unit=")?),
        b"split" => StepForm::Split(
            reader.field(" at=")?,
            reader.field(" unit=")?,
            reader.field(" after=")?,
        ),
        b"swap" => StepForm::Swap(reader.field(" at=")?, reader.field(" unit=")?),
        b"fuse" => StepForm::Fuse(reader.field(" at=")?, reader.field(" unit=")?),
        b"drain" => StepForm::Drain,
        _ => return None,
    };
    reader.end(form)
}

fn claim_form(line: &[u8]) -> Option<u32> {
    let mut reader = Reader::new(line)?;
    let label = reader.field("claim=")?;
    reader.end(label)
}

/// What is left to read of a line. Every reading takes its bytes from the front, or
/// gives nothing where the line doesn't come apart.
struct Reader<'a> {
    rest: &'a [u8],
}

impl<'a> Reader<'a> {
    /// Nothing can be read from a line that is too long.
    fn new(line: &'a [u8]) -> Option<Self> {
        (line.len() <= LINE_BYTES).then_some(Reader { rest: line })
    }

    fn text(&mut self, text: &str) -> Option<()> {
        self.rest = self.rest.strip_prefix(text.as_bytes())?;
        Some(())
    }

    /// The bytes before the next one for which `stop` holds.
    fn until(&mut self, stop: impl Fn(u8) -> bool) -> &'a [u8] {
        let end = self.rest.iter().position(|&byte| stop(byte));
        let (taken, rest) = self.rest.split_at(end.unwrap_or(self.rest.len()));
        self.rest = rest;
        taken
    }

    fn word(&mut self) -> &'a [u8] {
        self.until(|byte| byte == b' ')
    }

    /// A number after its name, which brings the space and the equals sign along.
    fn field(&mut self, name: &str) -> Option<u32> {
        self.text(name)?;
        self.number()
    }

    /// Base ten, no leading zeros, at most 4,294,967,295.
    fn number(&mut self) -> Option<u32> {
        let digits = self.until(|byte| !byte.is_ascii_digit());
        let leading_zero = digits.len() > 1 && digits[0] == b'0';
        if digits.is_empty() || leading_zero {
            return None;
        }
        digits.iter().try_fold(0u32, |number, &digit| {
            number.checked_mul(10)?.checked_add(u32::from(digit - b'0'))
        })
    }

    /// Numbers parted by commas, or nothing at all up to the line's end.
    fn numbers(&mut self) -> Option<Vec<u32>> {
        let mut numbers = Vec::new();
        if self.rest.is_empty() {
            return Some(numbers);
        }
        numbers.push(self.number()?);
        while self.text(",").is_some() {
            numbers.push(self.number()?);
        }
        Some(numbers)
    }

    fn targets(&mut self) -> Option<ToForm> {
        self.text(" to=")?;
        match self.text("all") {
            Some(()) => Some(ToForm::All),
            None => self.numbers().map(ToForm::Numbers),
        }
    }

    /// The form, if the whole line was read.
    fn end<T>(self, form: T) -> Option<T> {
        self.rest.is_empty().then_some(form)
    }
}
