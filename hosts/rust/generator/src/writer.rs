//! A log in the making, with the store that it leads to.

use std::ops::Range;

use twin::limits::{PENDING_WRITES, ROWS};
use twin::{Answer, Phase, Step, Store, Values};

/// Appends records and knows, by the twin, what each would answer.
pub struct Writer {
    pub bytes: Vec<u8>,
    store: Option<Store>,
}

impl Writer {
    pub fn open(rows: u32, versions: u32, buckets: u32, clock: u64) -> Writer {
        let store = Store::open(rows, versions, buckets, clock).ok();
        let mut writer = Writer { bytes: Vec::new(), store };
        writer.append(&Step::Open { rows, versions, buckets, clock });
        writer
    }

    /// Appends the step and answers as the twin does; a store that was not opened refuses everything.
    pub fn step(&mut self, step: Step) -> Answer {
        self.append(&step);
        self.store.as_mut().map_or(Err(1), |store| store.step(&step))
    }

    /// Appends the steps, whatever each answers.
    pub fn steps(&mut self, steps: &[Step]) {
        for &step in steps {
            let _ = self.step(step);
        }
    }

    /// Begins a transaction and gives its number, where it is not refused.
    pub fn begin(&mut self) -> Option<u64> {
        match self.step(Step::Begin) {
            Ok(Values::Number(number)) => Some(number),
            _ => None,
        }
    }

    /// One read of a key.
    pub fn read(&mut self, number: u64, key: u64, room: u32) {
        self.steps(&reading(number, key, room));
    }

    pub fn commit(&mut self, number: u64) {
        self.steps(&committing(number));
    }

    /// A transaction of its own that puts one row and publishes.
    pub fn put_and_publish(&mut self, row: u32, key: u64, payload: u64) {
        if let Some(number) = self.begin() {
            let _ = self.step(Step::Put { number, row, key, payload });
            self.commit(number);
        }
    }

    /// A write of each row, as many to a transaction as it can have, all published.
    pub fn write_each(&mut self, rows: Range<u32>, write: impl Fn(u64, u32) -> Step) {
        for first in rows.clone().step_by(PENDING_WRITES) {
            let Some(number) = self.begin() else { return };
            for row in first..rows.end.min(first + PENDING_WRITES as u32) {
                let _ = self.step(write(number, row));
            }
            self.commit(number);
        }
    }

    /// Takes so many versions: all rows again and again, each under a key of its own, since a transaction gives a row one.
    pub fn use_versions(&mut self, count: u32) {
        for used in (0..count).step_by(ROWS as usize) {
            let rows = 0..ROWS.min(count - used);
            self.write_each(rows, |number, row| Step::Put { number, row, key: row.into(), payload: used.into() });
        }
    }

    pub fn live(&self) -> Vec<(u64, Phase)> {
        self.store.iter().flat_map(Store::live).collect()
    }

    fn append(&mut self, step: &Step) {
        append_record(&mut self.bytes, step);
    }
}

/// One read of a key.
pub fn reading(number: u64, key: u64, room: u32) -> [Step; 3] {
    [Step::Capture { number, key }, Step::Collect { number }, Step::Rows { number, room }]
}

/// From prepare to publish.
pub fn committing(number: u64) -> [Step; 4] {
    [Step::Prepare { number }, Step::Install { number }, Step::End { number }, Step::Publish { number }]
}

/// A put of no payload.
pub fn put(number: u64, row: u32, key: u64) -> Step {
    Step::Put { number, row, key, payload: 0 }
}

/// Appends the record of one step.
pub fn append_record(log: &mut Vec<u8>, step: &Step) {
    let start = log.len();
    log.extend([0, 0]);
    let mut kind = |kind: u16| log.extend(kind.to_le_bytes());
    match *step {
        Step::Open { rows, versions, buckets, clock } => {
            kind(1);
            log.extend([rows, versions, buckets].into_iter().flat_map(u32::to_le_bytes));
            log.extend(clock.to_le_bytes());
        }
        Step::Begin => kind(2),
        Step::Capture { number, key } => {
            kind(3);
            log.extend([number, key].into_iter().flat_map(u64::to_le_bytes));
        }
        Step::Rows { number, room } => {
            kind(5);
            log.extend(number.to_le_bytes());
            log.extend(room.to_le_bytes());
        }
        Step::Put { number, row, key, payload } => {
            kind(6);
            log.extend(number.to_le_bytes());
            log.extend(row.to_le_bytes());
            log.extend([key, payload].into_iter().flat_map(u64::to_le_bytes));
        }
        Step::Erase { number, row } => {
            kind(7);
            log.extend(number.to_le_bytes());
            log.extend(row.to_le_bytes());
        }
        Step::Collect { number } => plain(log, 4, number),
        Step::Prepare { number } => plain(log, 8, number),
        Step::Install { number } => plain(log, 9, number),
        Step::End { number } => plain(log, 10, number),
        Step::Publish { number } => plain(log, 11, number),
        Step::Validate { number } => plain(log, 12, number),
        Step::Abort { number } => plain(log, 13, number),
    }
    let length = (log.len() - start - 2) as u16;
    log[start..start + 2].copy_from_slice(&length.to_le_bytes());
}

/// The kind and fields of a step that names its transaction and nothing else.
fn plain(log: &mut Vec<u8>, kind: u16, number: u64) {
    log.extend(kind.to_le_bytes());
    log.extend(number.to_le_bytes());
}
