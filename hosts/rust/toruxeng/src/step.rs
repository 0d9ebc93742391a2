//! One record of a log, as bytes and as words: docs/RULES.md, section 10.

use std::fmt;
use std::str::FromStr;

use crate::report::{decimal, Kind};

const MOST_FIELDS: usize = 4;
const LENGTH_BYTES: usize = 2;
const KIND_BYTES: usize = 2;

/// The bytes of each field of a kind's record, in their order; `bad` is a line of the report alone.
fn widths(kind: Kind) -> Option<&'static [usize]> {
    Some(match kind {
        Kind::Open => &[4, 4, 4, 8],
        Kind::Begin => &[],
        Kind::Capture => &[8, 8],
        Kind::Rows | Kind::Erase => &[8, 4],
        Kind::Put => &[8, 4, 8, 8],
        Kind::Collect | Kind::Prepare | Kind::Install | Kind::End | Kind::Publish | Kind::Validate | Kind::Abort => &[8],
        Kind::Bad => return None,
    })
}

/// The number of a kind in a log, which is its place in [`Kind::ALL`], counted from 1.
fn kind_of(number: u16) -> Option<Kind> {
    let kind = *Kind::ALL.get(usize::from(number).checked_sub(1)?)?;
    widths(kind).map(|_| kind)
}

/// A step of document 01 with its numbers; any numbers, for the replay refuses what is out of range.
#[derive(Clone, Copy, Debug, PartialEq, Eq, Hash)]
pub struct Step {
    kind: Kind,
    fields: [u64; MOST_FIELDS],
}

impl Step {
    /// A fresh store of these sizes; it stands at the front of a log and nowhere else.
    pub fn open(rows: u32, versions: u32, buckets: u32, clock: u64) -> Step {
        Step { kind: Kind::Open, fields: [rows.into(), versions.into(), buckets.into(), clock] }
    }

    pub fn begin() -> Step {
        Step { kind: Kind::Begin, fields: [0; MOST_FIELDS] }
    }

    pub fn capture(number: u64, key: u64) -> Step {
        Step { kind: Kind::Capture, fields: [number, key, 0, 0] }
    }

    pub fn collect(number: u64) -> Step {
        Step::of_transaction(Kind::Collect, number)
    }

    pub fn rows(number: u64, room: u32) -> Step {
        Step { kind: Kind::Rows, fields: [number, room.into(), 0, 0] }
    }

    pub fn put(number: u64, row: u32, key: u64, payload: u64) -> Step {
        Step { kind: Kind::Put, fields: [number, row.into(), key, payload] }
    }

    pub fn erase(number: u64, row: u32) -> Step {
        Step { kind: Kind::Erase, fields: [number, row.into(), 0, 0] }
    }

    pub fn prepare(number: u64) -> Step {
        Step::of_transaction(Kind::Prepare, number)
    }

    pub fn install(number: u64) -> Step {
        Step::of_transaction(Kind::Install, number)
    }

    pub fn end(number: u64) -> Step {
        Step::of_transaction(Kind::End, number)
    }

    pub fn publish(number: u64) -> Step {
        Step::of_transaction(Kind::Publish, number)
    }

    pub fn validate(number: u64) -> Step {
        Step::of_transaction(Kind::Validate, number)
    }

    pub fn abort(number: u64) -> Step {
        Step::of_transaction(Kind::Abort, number)
    }

    fn of_transaction(kind: Kind, number: u64) -> Step {
        Step { kind, fields: [number, 0, 0, 0] }
    }

    pub fn kind(&self) -> Kind {
        self.kind
    }

    /// The transaction that the step names; open and begin name none.
    pub fn number(&self) -> Option<u64> {
        (!matches!(self.kind, Kind::Open | Kind::Begin)).then_some(self.fields[0])
    }

    /// The numbers behind the word, in the record's order.
    pub fn fields(&self) -> &[u64] {
        &self.fields[..self.widths().len()]
    }

    /// The record: the length of what follows, the kind, the fields, all little-endian.
    pub fn bytes(&self) -> Vec<u8> {
        let length = KIND_BYTES + self.widths().iter().sum::<usize>();
        let kind = self.kind as u16 + 1;
        let mut bytes = [length as u16, kind].map(u16::to_le_bytes).concat();
        for (field, &width) in self.fields.iter().zip(self.widths()) {
            bytes.extend(&field.to_le_bytes()[..width]);
        }
        bytes
    }

    fn widths(&self) -> &'static [usize] {
        widths(self.kind).expect("a step is of a kind that a log has")
    }
}

/// As the words of the report begin: `capture 3 6`.
impl fmt::Display for Step {
    fn fmt(&self, to: &mut fmt::Formatter) -> fmt::Result {
        to.write_str(self.kind.word())?;
        self.fields().iter().try_for_each(|field| write!(to, " {field}"))
    }
}

/// Why words are no step.
#[derive(Clone, Debug, PartialEq, Eq)]
pub enum NoStep {
    UnknownWord(String),
    WrongCount {
        word: &'static str,
        expected: usize,
        found: usize,
    },
    /// No decimal number, or one that its field cannot hold.
    WrongNumber(String),
}

impl fmt::Display for NoStep {
    fn fmt(&self, to: &mut fmt::Formatter) -> fmt::Result {
        match self {
            NoStep::UnknownWord(word) => write!(to, "no step is called '{}'", word.escape_debug()),
            NoStep::WrongCount { word, expected, found } => {
                write!(to, "{word} takes {expected} number{}, not {found}", if *expected == 1 { "" } else { "s" })
            }
            NoStep::WrongNumber(number) => write!(to, "'{}' is no number that fits here", number.escape_debug()),
        }
    }
}

impl std::error::Error for NoStep {}

impl FromStr for Step {
    type Err = NoStep;

    fn from_str(text: &str) -> Result<Step, NoStep> {
        let mut words = text.split_whitespace();
        let word = words.next().unwrap_or("");
        let numbers: Vec<&str> = words.collect();
        let kind = Kind::of_word(word).filter(|&kind| widths(kind).is_some());
        let kind = kind.ok_or_else(|| NoStep::UnknownWord(word.to_string()))?;
        let mut step = Step { kind, fields: [0; MOST_FIELDS] };
        let expected = step.widths().len();
        if numbers.len() != expected {
            return Err(NoStep::WrongCount { word: kind.word(), expected, found: numbers.len() });
        }
        for ((field, number), &width) in step.fields.iter_mut().zip(numbers).zip(widths(kind).unwrap_or(&[])) {
            let fits = |value: &u64| width == 8 || *value <= u64::from(u32::MAX);
            *field = decimal(number).filter(fits).ok_or_else(|| NoStep::WrongNumber(number.to_string()))?;
        }
        Ok(step)
    }
}

/// Where a log stops being records, and why.
#[derive(Clone, Copy, Debug, PartialEq, Eq)]
pub struct Malformed {
    /// The byte at which the record begins.
    pub at: usize,
    pub fault: Fault,
}

#[derive(Clone, Copy, Debug, PartialEq, Eq)]
pub enum Fault {
    /// The log ends inside the record.
    Cut,
    /// Too short for a kind.
    NoKind {
        length: u16,
    },
    UnknownKind(u16),
    WrongLength {
        kind: Kind,
        length: u16,
    },
}

impl fmt::Display for Malformed {
    fn fmt(&self, to: &mut fmt::Formatter) -> fmt::Result {
        match self.fault {
            Fault::Cut => write!(to, "the record at byte {} is cut", self.at),
            Fault::NoKind { length } => {
                write!(to, "the record at byte {} has the length {length}, too short for a kind", self.at)
            }
            Fault::UnknownKind(kind) => write!(to, "the record at byte {} is of the unknown kind {kind}", self.at),
            Fault::WrongLength { kind, length } => {
                write!(to, "the record at byte {} is a {} of the wrong length {length}", self.at, kind.word())
            }
        }
    }
}

impl std::error::Error for Malformed {}

/// Whether a record can begin with these bytes; where they are no whole record, it was cut.
pub(crate) fn can_begin_a_record(bytes: &[u8]) -> bool {
    let kinds = Kind::ALL.into_iter().filter(|&kind| widths(kind).is_some());
    let mut records = kinds.map(|kind| Step { kind, fields: [0; MOST_FIELDS] }.bytes());
    let head = &bytes[..bytes.len().min(LENGTH_BYTES + KIND_BYTES)];
    records.any(|record| record.starts_with(head))
}

/// The steps of a log, one by one; after the first fault nothing. Where an open may stand is the replay's to say.
#[derive(Clone, Debug)]
pub struct Steps<'a> {
    log: &'a [u8],
    at: usize,
}

impl<'a> Steps<'a> {
    pub fn of(log: &'a [u8]) -> Steps<'a> {
        Steps { log, at: 0 }
    }

    /// The byte at which the next record begins.
    pub fn at(&self) -> usize {
        self.at
    }

    fn read(&self) -> Result<(Step, usize), Fault> {
        let (length, rest) = number_of(&self.log[self.at..]).ok_or(Fault::Cut)?;
        let body = rest.get(..usize::from(length)).ok_or(Fault::Cut)?;
        let (number, mut fields) = number_of(body).ok_or(Fault::NoKind { length })?;
        let kind = kind_of(number).ok_or(Fault::UnknownKind(number))?;
        let mut step = Step { kind, fields: [0; MOST_FIELDS] };
        if fields.len() != step.widths().iter().sum::<usize>() {
            return Err(Fault::WrongLength { kind, length });
        }
        let widths = step.widths();
        for (field, &width) in step.fields.iter_mut().zip(widths) {
            let (bytes, behind) = fields.split_at(width);
            *field = bytes.iter().rev().fold(0, |value, &byte| value << 8 | u64::from(byte));
            fields = behind;
        }
        Ok((step, LENGTH_BYTES + body.len()))
    }
}

impl Iterator for Steps<'_> {
    type Item = Result<Step, Malformed>;

    fn next(&mut self) -> Option<Result<Step, Malformed>> {
        if self.at == self.log.len() {
            return None;
        }
        Some(match self.read() {
            Ok((step, length)) => {
                self.at += length;
                Ok(step)
            }
            Err(fault) => {
                let at = std::mem::replace(&mut self.at, self.log.len());
                Err(Malformed { at, fault })
            }
        })
    }
}

/// The two bytes in front, as a number, and what is behind them.
fn number_of(bytes: &[u8]) -> Option<(u16, &[u8])> {
    let (number, rest) = bytes.split_first_chunk()?;
    Some((u16::from_le_bytes(*number), rest))
}
