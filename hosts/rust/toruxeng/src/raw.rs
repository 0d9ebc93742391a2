//! The calls for pointers that come from elsewhere, as JNI hands them: what can be told of them is tested before the call.

use std::fmt;
use std::ops::Range;

use crate::lent::{call_lent, RawTable};
use crate::replay::{call, Stopped};

/// Why [`replay_raw`] or [`replay_lent_raw`] has no whole report.
#[derive(Clone, Copy, Debug, PartialEq, Eq)]
pub enum RawError {
    /// Null with a length above 0, a length that no buffer has at that address, or a table that is not aligned.
    NoBuffer,
    /// Two of the buffers share bytes.
    BuffersOverlap,
    Stopped(Stopped),
}

impl RawError {
    /// As the header numbers it: the two of the checked entries stand above every status of document 01.
    pub fn number(self) -> u32 {
        match self {
            RawError::NoBuffer => 256,
            RawError::BuffersOverlap => 257,
            RawError::Stopped(stopped) => stopped.status.number(),
        }
    }
}

impl fmt::Display for RawError {
    fn fmt(&self, to: &mut fmt::Formatter) -> fmt::Result {
        match self {
            RawError::NoBuffer => to.write_str(
                "a buffer is null with a length above 0, longer than its address allows, or a table that is not aligned",
            ),
            RawError::BuffersOverlap => to.write_str("two of the buffers overlap"),
            RawError::Stopped(stopped) => stopped.fmt(to),
        }
    }
}

impl std::error::Error for RawError {}

/// As [`replay`](crate::replay), over raw pointers: gives the bytes written, and touches nothing where the error is
/// [`RawError::NoBuffer`] or [`RawError::BuffersOverlap`]. With length 0 any pointer will do; bytes need no alignment.
///
/// # Safety
/// A pointer that is not null, with a length above 0, is valid for so many bytes during the call: the log's for reading, the
/// report's for reading and writing, and nobody else writes to either.
pub unsafe fn replay_raw(log: *const u8, log_length: usize, report: *mut u8, report_length: usize) -> Result<usize, RawError> {
    all_apart(&[addresses(log, log_length)?, addresses(report, report_length)?])?;
    // SAFETY: the caller's promise, and the two are buffers that do not overlap
    unsafe { call(log, log_length, report, report_length) }.map_err(RawError::Stopped)
}

/// As [`replay_lent`](crate::replay_lent), over raw pointers and the tables rows, versions, buckets, lists; else as [`replay_raw`].
///
/// # Safety
/// As of [`replay_raw`]; the tables are valid for reading and writing so many words, and nobody else touches them.
pub unsafe fn replay_lent_raw(
    log: *const u8,
    log_length: usize,
    report: *mut u8,
    report_length: usize,
    tables: [RawTable; 4],
) -> Result<usize, RawError> {
    let [rows, versions, buckets, lists] = tables.map(addresses_of_table);
    all_apart(&[addresses(log, log_length)?, addresses(report, report_length)?, rows?, versions?, buckets?, lists?])?;
    // SAFETY: the caller's promise, and all are buffers that do not overlap
    unsafe { call_lent(log, log_length, report, report_length, tables) }.map_err(RawError::Stopped)
}

fn all_apart(buffers: &[Range<usize>]) -> Result<(), RawError> {
    let share = |one: &Range<usize>, other: &Range<usize>| one.start.max(other.start) < one.end.min(other.end);
    for (place, one) in buffers.iter().enumerate() {
        if buffers[..place].iter().any(|other| share(one, other)) {
            return Err(RawError::BuffersOverlap);
        }
    }
    Ok(())
}

fn addresses_of_table(table: RawTable) -> Result<Range<usize>, RawError> {
    let bytes = table.length.checked_mul(size_of::<u64>()).ok_or(RawError::NoBuffer)?;
    if bytes > 0 && !table.start.is_aligned() {
        return Err(RawError::NoBuffer);
    }
    addresses(table.start.cast(), bytes)
}

/// What a buffer covers; none at all with length 0, wherever it points.
fn addresses(start: *const u8, length: usize) -> Result<Range<usize>, RawError> {
    let start = start as usize;
    match start.checked_add(length) {
        Some(end) if length == 0 || (start != 0 && length <= isize::MAX as usize) => Ok(start..end),
        _ => Err(RawError::NoBuffer),
    }
}
