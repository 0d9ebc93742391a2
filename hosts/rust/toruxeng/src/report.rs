//! A report's lines as values.

use std::fmt;

use crate::limits::ROWS;

/// The lines of a report, each whole.
#[derive(Clone, Copy, Debug, PartialEq, Eq)]
pub struct Report<'a> {
    bytes: &'a [u8],
}

impl<'a> Report<'a> {
    pub(crate) fn of_engine(bytes: &'a [u8]) -> Report<'a> {
        Report { bytes }
    }

    /// A report that was kept as bytes, or nothing where a line is none of document 01's.
    pub fn of_bytes(bytes: &'a [u8]) -> Option<Report<'a>> {
        let ended = bytes.is_empty() || bytes.ends_with(b"\n");
        let lines = || bytes.split_inclusive(|&byte| byte == b'\n');
        (ended && lines().all(|line| Line::of_bytes(line).is_some())).then_some(Report { bytes })
    }

    pub fn bytes(&self) -> &'a [u8] {
        self.bytes
    }

    pub fn lines(&self) -> Lines<'a> {
        Lines { rest: self.bytes }
    }

    /// The answer to the last step that was reported.
    pub fn last(&self) -> Option<Line<'a>> {
        let without_end = self.bytes.strip_suffix(b"\n")?;
        let start = without_end.iter().rposition(|&byte| byte == b'\n').map_or(0, |end| end + 1);
        Lines { rest: &self.bytes[start..] }.next()
    }
}

/// What [`Report::lines`] gives.
#[derive(Clone, Debug)]
pub struct Lines<'a> {
    rest: &'a [u8],
}

impl<'a> Iterator for Lines<'a> {
    type Item = Line<'a>;

    fn next(&mut self) -> Option<Line<'a>> {
        let end = self.rest.iter().position(|&byte| byte == b'\n')? + 1;
        let (line, rest) = self.rest.split_at(end);
        self.rest = rest;
        Some(Line::of_bytes(line).expect("a line of document 01"))
    }
}

/// One line: which step it answers, and the values or the refusal.
#[derive(Clone, Debug, PartialEq, Eq)]
pub struct Line<'a> {
    pub kind: Kind,
    pub answer: Result<Values<'a>, Refusal>,
}

impl<'a> Line<'a> {
    /// The number after the word: 0, or the refusal's.
    pub fn number(&self) -> u32 {
        self.answer.as_ref().map_or_else(|refusal| refusal.number(), |_| 0)
    }

    /// The clock after the step, where the step moved it.
    pub(crate) fn moved_clock(&self) -> Option<u64> {
        match (self.kind, &self.answer) {
            (Kind::Begin, Ok(Values::Number(before))) | (Kind::Publish, Ok(Values::Stamp(before))) => Some(before + 1),
            _ => None,
        }
    }

    pub(crate) fn of_bytes(line: &'a [u8]) -> Option<Line<'a>> {
        let line = std::str::from_utf8(line.strip_suffix(b"\n")?).ok()?;
        let (word, rest) = line.split_once(' ')?;
        let kind = Kind::of_word(word)?;
        let (number, values) = match rest.split_once(' ') {
            None => (rest, None),
            Some((number, values)) => (number, Some(values)),
        };
        let answer = match (decimal(number)?, values) {
            (0, values) => Ok(Values::of(kind, values)?),
            (number, None) => Err(Refusal::of_number(number)?),
            (_, Some(_)) => return None,
        };
        Some(Line { kind, answer })
    }
}

/// A number as reports write it: no sign, no leading zero.
pub(crate) fn decimal(text: &str) -> Option<u64> {
    let plain = text.bytes().all(|byte| byte.is_ascii_digit()) && (text == "0" || !text.starts_with('0'));
    if plain {
        text.parse().ok()
    } else {
        None
    }
}

/// The fixed word that a line begins with.
#[derive(Clone, Copy, Debug, PartialEq, Eq, Hash, PartialOrd, Ord)]
pub enum Kind {
    Open,
    Begin,
    Capture,
    Collect,
    Rows,
    Put,
    Erase,
    Prepare,
    Install,
    End,
    Publish,
    Validate,
    Abort,
    /// A record that is no step; always the last line.
    Bad,
}

impl Kind {
    pub const ALL: [Kind; 14] = [
        Kind::Open,
        Kind::Begin,
        Kind::Capture,
        Kind::Collect,
        Kind::Rows,
        Kind::Put,
        Kind::Erase,
        Kind::Prepare,
        Kind::Install,
        Kind::End,
        Kind::Publish,
        Kind::Validate,
        Kind::Abort,
        Kind::Bad,
    ];

    pub fn word(self) -> &'static str {
        match self {
            Kind::Open => "open",
            Kind::Begin => "begin",
            Kind::Capture => "capture",
            Kind::Collect => "collect",
            Kind::Rows => "rows",
            Kind::Put => "put",
            Kind::Erase => "erase",
            Kind::Prepare => "prepare",
            Kind::Install => "install",
            Kind::End => "end",
            Kind::Publish => "publish",
            Kind::Validate => "validate",
            Kind::Abort => "abort",
            Kind::Bad => "bad",
        }
    }

    pub(crate) fn of_word(word: &str) -> Option<Kind> {
        Kind::ALL.into_iter().find(|kind| kind.word() == word)
    }
}

/// What an accepted step answers.
#[derive(Clone, Debug, PartialEq, Eq)]
pub enum Values<'a> {
    /// open, put, erase, prepare, install, end, abort
    Nothing,
    /// begin: the transaction's number
    Number(u64),
    /// capture: the bucket's stamp; publish: the new one
    Stamp(u64),
    /// collect: how many rows are posted with the key
    Count(u64),
    /// rows: the rows that match, ascending
    Rows(RowNumbers<'a>),
    /// validate
    Verdict(Verdict),
}

impl<'a> Values<'a> {
    fn of(kind: Kind, text: Option<&'a str>) -> Option<Values<'a>> {
        Some(match kind {
            Kind::Begin => Values::Number(decimal(text?)?),
            Kind::Capture | Kind::Publish => Values::Stamp(decimal(text?)?),
            Kind::Collect => Values::Count(decimal(text?)?),
            Kind::Rows => Values::Rows(RowNumbers::of(text?)?),
            Kind::Validate => Values::Verdict(Verdict::of(text?)?),
            Kind::Bad => return None,
            _ if text.is_none() => Values::Nothing,
            _ => return None,
        })
    }
}

/// The rows that a read matched, ascending.
#[derive(Clone, Debug, PartialEq, Eq)]
pub struct RowNumbers<'a> {
    rest: &'a str,
    left: usize,
}

impl<'a> RowNumbers<'a> {
    /// Of `COUNT ROW ROW ..`
    fn of(text: &'a str) -> Option<RowNumbers<'a>> {
        let (count, rest) = text.split_once(' ').unwrap_or((text, ""));
        let rows = RowNumbers { rest, left: usize::try_from(decimal(count)?).ok()? };
        let listed = if rest.is_empty() { 0 } else { rest.split(' ').count() };
        let in_range = |row| decimal(row).is_some_and(|row| row < ROWS.into());
        let whole = listed == rows.left && (rest.is_empty() || rest.split(' ').all(in_range));
        (whole && !text.ends_with(' ')).then_some(rows)
    }
}

impl Iterator for RowNumbers<'_> {
    type Item = u32;

    fn next(&mut self) -> Option<u32> {
        self.left = self.left.checked_sub(1)?;
        let (row, rest) = self.rest.split_once(' ').unwrap_or((self.rest, ""));
        self.rest = rest;
        row.parse().ok()
    }

    fn size_hint(&self) -> (usize, Option<usize>) {
        (self.left, Some(self.left))
    }
}

impl ExactSizeIterator for RowNumbers<'_> {}

/// What validate says of the transaction's reads.
#[derive(Clone, Copy, Debug, PartialEq, Eq)]
pub enum Verdict {
    /// 0: the reads stand.
    Clear,
    /// 1: the bucket's stamp is no longer the captured one.
    StampChanged { bucket: u64, captured: u64, present: u64 },
    /// 2: the row was written by a transaction that the snapshot does not see.
    RowChanged { row: u64, pointer: u64 },
    /// 3: a capture found a stale stamp.
    Marked,
}

impl Verdict {
    fn of(text: &str) -> Option<Verdict> {
        let values = text.split(' ').map(decimal).collect::<Option<Vec<u64>>>()?;
        match values[..] {
            [0] => Some(Verdict::Clear),
            [1, bucket, captured, present] => Some(Verdict::StampChanged { bucket, captured, present }),
            [2, row, pointer] => Some(Verdict::RowChanged { row, pointer }),
            [3] => Some(Verdict::Marked),
            _ => None,
        }
    }
}

/// Why a step was refused, in words by [`Display`](fmt::Display). It left the store as it was, but that the first stale capture
/// ([`Refusal::Stale`]) of a transaction marked it.
#[derive(Clone, Copy, Debug, PartialEq, Eq, Hash, PartialOrd, Ord)]
pub enum Refusal {
    /// open
    OpenOutOfRange = 1,
    /// begin
    ClockUsedUp = 2,
    /// begin
    TooManyLive = 3,
    /// all but open and begin
    UnknownTransaction = 4,
    /// all but open and begin
    WrongPhase = 5,
    /// put, erase
    RowOutOfRange = 6,
    /// capture, validate, prepare
    Taken = 7,
    /// capture, put, erase
    Stale = 8,
    /// capture
    IndexReadsFull = 9,
    /// rows
    RoomTooShort = 10,
    /// rows
    ReadRecordsFull = 11,
    /// put, erase
    PendingWritesFull = 12,
    /// prepare
    VersionsUsedUp = 13,
    /// prepare
    Conflict = 14,
    /// a record that is no step here
    Malformed = 15,
    /// open, over a table that is too short; no other step of a replay
    WrongShape = 16,
}

/// What to do after a refusal.
#[derive(Clone, Copy, Debug, PartialEq, Eq)]
pub enum Advice {
    /// Repeat the same step once others have gone on.
    TryLater,
    /// Abort the transaction and begin it anew.
    BeginAnew,
    /// A limit was met: publish or abort what is live, read less, or open a larger store.
    MakeRoom,
    /// The program or its log is wrong.
    Correct,
}

impl Refusal {
    pub const ALL: [Refusal; 16] = [
        Refusal::OpenOutOfRange,
        Refusal::ClockUsedUp,
        Refusal::TooManyLive,
        Refusal::UnknownTransaction,
        Refusal::WrongPhase,
        Refusal::RowOutOfRange,
        Refusal::Taken,
        Refusal::Stale,
        Refusal::IndexReadsFull,
        Refusal::RoomTooShort,
        Refusal::ReadRecordsFull,
        Refusal::PendingWritesFull,
        Refusal::VersionsUsedUp,
        Refusal::Conflict,
        Refusal::Malformed,
        Refusal::WrongShape,
    ];

    pub fn number(self) -> u32 {
        self as u32
    }

    pub fn advice(self) -> Advice {
        use Refusal::*;
        match self {
            Taken => Advice::TryLater,
            Stale | Conflict => Advice::BeginAnew,
            ClockUsedUp | TooManyLive | IndexReadsFull | RoomTooShort | ReadRecordsFull | PendingWritesFull | VersionsUsedUp => {
                Advice::MakeRoom
            }
            OpenOutOfRange | UnknownTransaction | WrongPhase | RowOutOfRange | Malformed | WrongShape => Advice::Correct,
        }
    }

    fn words(self) -> &'static str {
        match self {
            Refusal::OpenOutOfRange => "a size is outside its range, or the clock is 0",
            Refusal::ClockUsedUp => "the clock has no numbers left",
            Refusal::TooManyLive => "eight transactions are live",
            Refusal::UnknownTransaction => "no live transaction has this number",
            Refusal::WrongPhase => "the transaction is in another phase",
            Refusal::RowOutOfRange => "there is no such row",
            Refusal::Taken => "another transaction holds a bucket or has claimed a row that is needed",
            Refusal::Stale => "a bucket that was to be read changed since the transaction began; the transaction is marked",
            Refusal::IndexReadsFull => "16 buckets were read already",
            Refusal::RoomTooShort => "more rows match than the room given",
            Refusal::ReadRecordsFull => "more than 128 versions would be read",
            Refusal::PendingWritesFull => "16 writes are pending",
            Refusal::VersionsUsedUp => "no versions are left for its rows",
            Refusal::Conflict => "a read no longer stands, or the transaction is marked",
            Refusal::Malformed => "the log's record is no step here",
            Refusal::WrongShape => "a table is too short, or the state is of wrong shape",
        }
    }

    fn of_number(number: u64) -> Option<Refusal> {
        Refusal::ALL.into_iter().find(|refusal| u64::from(refusal.number()) == number)
    }
}

impl fmt::Display for Refusal {
    fn fmt(&self, to: &mut fmt::Formatter) -> fmt::Result {
        write!(to, "refused with {}: {}", self.number(), self.words())
    }
}

impl std::error::Error for Refusal {}
