//! What stands in the rows: no step answers a payload, so tests look at it here.

use super::{Snapshot, Store};

/// What a row shows, where it shows a key.
#[derive(Clone, Copy, Debug, PartialEq, Eq)]
pub struct Content {
    pub key: u64,
    pub payload: u64,
}

impl Content {
    /// An erase and an erased version show nothing.
    fn of(key: Option<u64>, payload: u64) -> Option<Content> {
        key.map(|key| Content { key, payload })
    }
}

impl Store {
    /// What the row shows to a live transaction: its own last pending write, or else what its snapshot sees.
    pub fn shown(&self, number: u64, row: u32) -> Option<Content> {
        match self.transactions.get(&number)?.last_write(row) {
            Some(write) => Content::of(write.key, write.payload),
            None => self.seen(number, row),
        }
    }

    /// Whether a live transaction has a pending write of the row.
    pub fn is_pending(&self, number: u64, row: u32) -> bool {
        self.transactions.get(&number).is_some_and(|transaction| transaction.last_write(row).is_some())
    }

    /// What the snapshot of a live transaction sees in the row, whatever it has pending there itself.
    pub fn seen(&self, number: u64, row: u32) -> Option<Content> {
        self.seen_by(&self.transactions.get(&number)?.snapshot, row)
    }

    /// What a snapshot taken now sees in each row.
    pub fn seen_now(&self) -> Vec<Option<Content>> {
        let now = self.snapshot_now();
        (0..self.rows.len() as u32).map(|row| self.seen_by(&now, row)).collect()
    }

    fn seen_by(&self, snapshot: &Snapshot, row: u32) -> Option<Content> {
        let (_, version) = self.first_visible(snapshot, row)?;
        Content::of(version.key, version.payload)
    }
}
