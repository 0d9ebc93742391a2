//! The exported function that works in tables of the caller's own, for a thread with little stack.

use crate::limits::{BUCKETS, INDEX_READS, LIVE, PENDING_WRITES, READ_RECORDS, ROWS, VERSIONS};
use crate::replay::{parts, Stopped};
use crate::report::Report;

extern "C" {
    /// Status × 4,294,967,296 + bytes written; the lengths of the tables are in words.
    fn toruxeng_replay_lent(
        log: *const u8,
        log_length: usize,
        report: *mut u8,
        report_length: usize,
        rows: *mut u64,
        rows_length: usize,
        versions: *mut u64,
        versions_length: usize,
        buckets: *mut u64,
        buckets_length: usize,
        lists: *mut u64,
        lists_length: usize,
    ) -> u64;
}

/// The sizes that a log's open asks for.
#[derive(Clone, Copy, Debug, PartialEq, Eq)]
pub struct Sizes {
    pub rows: u32,
    pub versions: u32,
    pub buckets: u32,
}

impl Sizes {
    /// Those of the largest store.
    pub const LARGEST: Sizes = Sizes { rows: ROWS, versions: VERSIONS, buckets: BUCKETS };
}

/// How many words each table has.
#[derive(Clone, Copy, Debug, PartialEq, Eq)]
pub struct Words {
    pub rows: usize,
    pub versions: usize,
    pub buckets: usize,
    pub lists: usize,
}

/// What a store of these sizes needs. A size beyond its limit counts as the limit: its open is refused whatever is lent.
pub fn words(sizes: Sizes) -> Words {
    let [rows, versions, buckets] =
        [(sizes.rows, ROWS), (sizes.versions, VERSIONS), (sizes.buckets, BUCKETS)].map(|(size, most)| size.min(most) as usize);
    let lists_of_one = 2 * INDEX_READS + 4 * PENDING_WRITES + 3 * READ_RECORDS + ROWS as usize;
    Words { rows: 6 * rows, versions: 6 * (versions + 1), buckets: 2 * buckets, lists: LIVE * lists_of_one }
}

/// The four tables, lent to one replay. Any words may stand in them; what a replay leaves there means nothing to another.
#[derive(Debug)]
pub struct Lent<'t> {
    pub rows: &'t mut [u64],
    pub versions: &'t mut [u64],
    pub buckets: &'t mut [u64],
    pub lists: &'t mut [u64],
}

/// Tables on the heap, for as many replays as wanted.
#[derive(Clone, Debug)]
pub struct Tables {
    rows: Vec<u64>,
    versions: Vec<u64>,
    buckets: Vec<u64>,
    lists: Vec<u64>,
}

impl Tables {
    /// Long enough for a log that opens a store of these sizes, or of smaller ones.
    pub fn for_sizes(sizes: Sizes) -> Tables {
        let Words { rows, versions, buckets, lists } = words(sizes);
        let [rows, versions, buckets, lists] = [rows, versions, buckets, lists].map(|words| vec![0; words]);
        Tables { rows, versions, buckets, lists }
    }

    pub fn lend(&mut self) -> Lent<'_> {
        Lent { rows: &mut self.rows, versions: &mut self.versions, buckets: &mut self.buckets, lists: &mut self.lists }
    }
}

/// A table by its address and its length in words.
#[derive(Clone, Copy, Debug)]
pub struct RawTable {
    pub start: *mut u64,
    pub length: usize,
}

impl RawTable {
    fn of(table: &mut [u64]) -> RawTable {
        RawTable { start: table.as_mut_ptr(), length: table.len() }
    }
}

/// As [`replay`](crate::replay), over lent tables: of the stack this takes 64 KiB at most. A table that is shorter than the sizes of the
/// log's open need is [`Status::TableShort`](crate::Status::TableShort), and then no table is changed; words past what they need are
/// never changed.
///
/// ```
/// # fn main() -> Result<(), toruxeng::Stopped> {
/// let mut tables = toruxeng::Tables::for_sizes(toruxeng::Sizes { rows: 64, versions: 1024, buckets: 257 });
/// let mut log = toruxeng::Log::open(64, 1024, 257, 1);
/// let mut report = vec![0; log.begin().report_room()];
/// assert_eq!(toruxeng::replay_lent(log.bytes(), &mut report, tables.lend())?.bytes(), b"open 0\nbegin 0 1\n");
/// # Ok(())
/// # }
/// ```
///
/// # Panics
/// As there.
pub fn replay_lent<'a>(log: &[u8], report: &'a mut [u8], lent: Lent) -> Result<Report<'a>, Stopped> {
    let tables = [lent.rows, lent.versions, lent.buckets, lent.lists].map(RawTable::of);
    // SAFETY: all are live slices for the whole call, and they cannot overlap
    let written = unsafe { call_lent(log.as_ptr(), log.len(), report.as_mut_ptr(), report.len(), tables) }?;
    Ok(Report::of_engine(&report[..written]))
}

/// The function's answer in its two halves; the tables are rows, versions, buckets, lists.
///
/// # Safety
/// Each pointer is valid for its length during the call, and aligned, or the length is 0; no two overlap.
pub(crate) unsafe fn call_lent(
    log: *const u8,
    log_length: usize,
    report: *mut u8,
    report_length: usize,
    tables: [RawTable; 4],
) -> Result<usize, Stopped> {
    let [rows, versions, buckets, lists] = tables;
    // SAFETY: the caller's promise
    parts(unsafe {
        toruxeng_replay_lent(
            log,
            log_length,
            report,
            report_length,
            rows.start,
            rows.length,
            versions.start,
            versions.length,
            buckets.start,
            buckets.length,
            lists.start,
            lists.length,
        )
    })
}
