//! The lengths of tables that are lent to a replay. The twin keeps its store elsewhere, and only tells which tables are too short.

use crate::limits::{INDEX_READS, LIVE, PENDING_WRITES, READ_RECORDS, ROWS};
use crate::records::{read_record, Step};
use crate::store::{Refusal, Store};

/// Words of rows, versions, buckets and lists.
pub type Words = [usize; 4];

/// More than any store needs.
pub const AMPLE: Words = [usize::MAX; 4];

/// What a store of these sizes needs.
pub fn words_needed(rows: u32, versions: u32, buckets: u32) -> Words {
    let lists_of_one = 2 * INDEX_READS + 4 * PENDING_WRITES + 3 * READ_RECORDS + ROWS as usize;
    [6 * rows as usize, 6 * (versions as usize + 1), 2 * buckets as usize, LIVE * lists_of_one]
}

/// What the store needs that a log opens, where it opens one.
pub fn words_of(log: &[u8]) -> Option<Words> {
    match read_record(log)?.0 {
        Step::Open { rows, versions, buckets, clock } => {
            Store::open(rows, versions, buckets, clock).ok().map(|_| words_needed(rows, versions, buckets))
        }
        _ => None,
    }
}

impl Store {
    /// A fresh store over tables of these lengths: refusal 1, and after it 16 where one is too short.
    pub(crate) fn open_lent(rows: u32, versions: u32, buckets: u32, clock: u64, lent: &Words) -> Result<Store, Refusal> {
        let store = Store::open(rows, versions, buckets, clock)?;
        let is_enough = lent.iter().zip(words_needed(rows, versions, buckets)).all(|(&lent, needed)| lent >= needed);
        if is_enough {
            Ok(store)
        } else {
            Err(16)
        }
    }
}
