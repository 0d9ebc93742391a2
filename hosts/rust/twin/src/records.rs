//! The log: a 2-byte length of what follows, a 2-byte kind, the kind's fields, all little-endian.

/// One record of a log.
#[derive(Clone, Copy, Debug, PartialEq, Eq)]
pub enum Step {
    Open { rows: u32, versions: u32, buckets: u32, clock: u64 },
    Begin,
    Capture { number: u64, key: u64 },
    Collect { number: u64 },
    Rows { number: u64, room: u32 },
    Put { number: u64, row: u32, key: u64, payload: u64 },
    Erase { number: u64, row: u32 },
    Prepare { number: u64 },
    Install { number: u64 },
    End { number: u64 },
    Publish { number: u64 },
    Validate { number: u64 },
    Abort { number: u64 },
}

impl Step {
    /// The fixed word that the step's report line begins with.
    pub fn word(&self) -> &'static str {
        match self {
            Step::Open { .. } => "open",
            Step::Begin => "begin",
            Step::Capture { .. } => "capture",
            Step::Collect { .. } => "collect",
            Step::Rows { .. } => "rows",
            Step::Put { .. } => "put",
            Step::Erase { .. } => "erase",
            Step::Prepare { .. } => "prepare",
            Step::Install { .. } => "install",
            Step::End { .. } => "end",
            Step::Publish { .. } => "publish",
            Step::Validate { .. } => "validate",
            Step::Abort { .. } => "abort",
        }
    }

    /// The transaction that the step names; open and begin name none.
    pub fn number(mut self) -> Option<u64> {
        self.named().copied()
    }

    /// The same step of another transaction.
    pub fn with_number(mut self, number: u64) -> Step {
        if let Some(named) = self.named() {
            *named = number;
        }
        self
    }

    fn named(&mut self) -> Option<&mut u64> {
        match self {
            Step::Open { .. } | Step::Begin => None,
            Step::Capture { number, .. } | Step::Rows { number, .. } | Step::Put { number, .. } | Step::Erase { number, .. } => {
                Some(number)
            }
            Step::Collect { number } | Step::Prepare { number } | Step::Install { number } | Step::End { number } => Some(number),
            Step::Publish { number } | Step::Validate { number } | Step::Abort { number } => Some(number),
        }
    }
}

struct Fields<'a> {
    rest: &'a [u8],
}

impl Fields<'_> {
    fn u16(&mut self) -> Option<u16> {
        let (field, rest) = self.rest.split_first_chunk()?;
        self.rest = rest;
        Some(u16::from_le_bytes(*field))
    }

    fn u32(&mut self) -> Option<u32> {
        let (field, rest) = self.rest.split_first_chunk()?;
        self.rest = rest;
        Some(u32::from_le_bytes(*field))
    }

    fn u64(&mut self) -> Option<u64> {
        let (field, rest) = self.rest.split_first_chunk()?;
        self.rest = rest;
        Some(u64::from_le_bytes(*field))
    }
}

/// The record that `bytes` begin with and the bytes after it, or nothing where it is cut, of an unknown kind
/// or of a wrong length.
pub fn read_record(bytes: &[u8]) -> Option<(Step, &[u8])> {
    let (length, after) = bytes.split_first_chunk()?;
    let length = u16::from_le_bytes(*length) as usize;
    let (body, next) = after.split_at_checked(length)?;
    let mut body = Fields { rest: body };
    let kind = body.u16()?;
    let step = match kind {
        1 => Step::Open { rows: body.u32()?, versions: body.u32()?, buckets: body.u32()?, clock: body.u64()? },
        2 => Step::Begin,
        3 => Step::Capture { number: body.u64()?, key: body.u64()? },
        4 => Step::Collect { number: body.u64()? },
        5 => Step::Rows { number: body.u64()?, room: body.u32()? },
        6 => Step::Put { number: body.u64()?, row: body.u32()?, key: body.u64()?, payload: body.u64()? },
        7 => Step::Erase { number: body.u64()?, row: body.u32()? },
        8 => Step::Prepare { number: body.u64()? },
        9 => Step::Install { number: body.u64()? },
        10 => Step::End { number: body.u64()? },
        11 => Step::Publish { number: body.u64()? },
        12 => Step::Validate { number: body.u64()? },
        13 => Step::Abort { number: body.u64()? },
        _ => return None,
    };
    body.rest.is_empty().then_some((step, next))
}
