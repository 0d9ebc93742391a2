//! The exported function that has its tables on the stack, behind two safe ones.

use std::fmt;

use crate::report::Report;

extern "C" {
    /// Status × 4,294,967,296 + bytes written.
    fn toruxeng_replay(log: *const u8, log_length: usize, report: *mut u8, report_length: usize) -> u64;
}

/// Why a replay stopped before the end of its log.
#[derive(Clone, Copy, Debug, PartialEq, Eq)]
pub enum Status {
    /// The open was refused: a size outside its range, or clock 0.
    OpenRefused = 1,
    /// The next line does not fit in the report; the lines before it stand.
    ReportFull = 10,
    /// A record is cut, of an unknown kind or of a wrong length, or an open is misplaced or missing.
    LogMalformed = 15,
    /// A lent table is shorter than the sizes of the open need; only [`replay_lent`](crate::replay_lent) has tables.
    TableShort = 16,
}

impl Status {
    pub fn number(self) -> u32 {
        self as u32
    }

    fn of_number(number: u32) -> Option<Status> {
        let all = [Status::OpenRefused, Status::ReportFull, Status::LogMalformed, Status::TableShort];
        all.into_iter().find(|status| status.number() == number)
    }
}

impl fmt::Display for Status {
    fn fmt(&self, to: &mut fmt::Formatter) -> fmt::Result {
        to.write_str(match self {
            Status::OpenRefused => "the open was refused",
            Status::ReportFull => "the report has no room for the next line",
            Status::LogMalformed => "the log is malformed",
            Status::TableShort => "a table is too short for the sizes of the open",
        })
    }
}

/// A replay that stopped: why, and how many bytes of its buffer the lines before take.
#[derive(Clone, Copy, Debug, PartialEq, Eq)]
pub struct Stopped {
    pub status: Status,
    pub written: usize,
}

impl Stopped {
    /// The lines that were written before the replay stopped; `buffer` is the one that it wrote to.
    ///
    /// # Panics
    /// Where the buffer is shorter than what was written: it is another one.
    pub fn report<'a>(&self, buffer: &'a [u8]) -> Report<'a> {
        Report::of_engine(&buffer[..self.written])
    }
}

impl fmt::Display for Stopped {
    fn fmt(&self, to: &mut fmt::Formatter) -> fmt::Result {
        write!(to, "replay stopped with status {}: {}", self.status.number(), self.status)
    }
}

impl std::error::Error for Stopped {}

/// Replays `log` and writes a line for each step to the front of `report`; bytes after the last line keep their contents.
///
/// # Panics
/// Where the linked library answers what document 01 does not know: it is not Toruxeng's.
pub fn replay<'a>(log: &[u8], report: &'a mut [u8]) -> Result<Report<'a>, Stopped> {
    // SAFETY: both are live slices for the whole call, and they cannot overlap
    let written = unsafe { call(log.as_ptr(), log.len(), report.as_mut_ptr(), report.len()) }?;
    Ok(Report::of_engine(&report[..written]))
}

/// The function's answer in its two halves: bytes written, and the status where it is not 0.
///
/// # Safety
/// Each pointer is valid for its length during the call, or the length is 0; the two do not overlap.
pub(crate) unsafe fn call(log: *const u8, log_length: usize, report: *mut u8, report_length: usize) -> Result<usize, Stopped> {
    // SAFETY: the caller's promise
    parts(unsafe { toruxeng_replay(log, log_length, report, report_length) })
}

/// An answer in its two halves.
pub(crate) fn parts(answer: u64) -> Result<usize, Stopped> {
    let written = answer as u32 as usize;
    match (answer >> 32) as u32 {
        0 => Ok(written),
        number => Err(Stopped { status: Status::of_number(number).expect("a status of document 01"), written }),
    }
}

/// As [`replay`], but anything except status 0 ends the process at once, without unwinding.
pub fn replay_or_abort<'a>(log: &[u8], report: &'a mut [u8]) -> Report<'a> {
    match replay(log, report) {
        Ok(report) => report,
        Err(stopped) => {
            eprintln!("{stopped}");
            std::process::abort()
        }
    }
}
