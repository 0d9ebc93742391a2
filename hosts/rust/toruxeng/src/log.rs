//! The bytes of a log, step by step.

use crate::limits::{PENDING_WRITES, READ_RECORDS, ROWS};
use crate::report::Kind;
use crate::step::Step;

/// A read finds at most a row for each read record and for each pending write; the last rows of the largest store have four digits.
const MOST_FOUND: usize = READ_RECORDS + PENDING_WRITES;
const FOUR_DIGITS: usize = ROWS as usize - 1000;

/// No line of a report is longer than one with the last rows of the largest store, and only a rows step answers such a one.
pub const LONGEST_LINE: usize = "rows 0 144\n".len() + (MOST_FOUND - FOUR_DIGITS) * " 999".len() + FOUR_DIGITS * " 1023".len();
/// The line of verdict 1 has the most and the largest values of the others.
const LONGEST_OTHER_LINE: usize = "validate 0 1 4095 18446744073709551615 18446744073709551615\n".len();

/// No line that answers a step of this kind is longer.
pub(crate) fn longest_line(kind: Kind) -> usize {
    if kind == Kind::Rows {
        LONGEST_LINE
    } else {
        LONGEST_OTHER_LINE
    }
}

/// A log that begins with its open, the only place where one may stand.
#[derive(Clone, Debug)]
pub struct Log {
    bytes: Vec<u8>,
    report_room: usize,
}

impl Log {
    /// A log for a fresh store of these sizes. Sizes out of range are refused by the replay (status 1), not here.
    pub fn open(rows: u32, versions: u32, buckets: u32, clock: u64) -> Log {
        let mut log = Log { bytes: Vec::new(), report_room: 0 };
        log.step(Step::open(rows, versions, buckets, clock));
        log
    }

    pub fn bytes(&self) -> &[u8] {
        &self.bytes
    }

    /// So many bytes hold the report of this log, whatever the answers.
    pub fn report_room(&self) -> usize {
        self.report_room
    }

    pub fn step(&mut self, step: Step) -> &mut Log {
        self.bytes.extend(step.bytes());
        self.report_room += longest_line(step.kind());
        self
    }

    pub fn begin(&mut self) -> &mut Log {
        self.step(Step::begin())
    }

    pub fn capture(&mut self, number: u64, key: u64) -> &mut Log {
        self.step(Step::capture(number, key))
    }

    pub fn collect(&mut self, number: u64) -> &mut Log {
        self.step(Step::collect(number))
    }

    pub fn rows(&mut self, number: u64, room: u32) -> &mut Log {
        self.step(Step::rows(number, room))
    }

    pub fn put(&mut self, number: u64, row: u32, key: u64, payload: u64) -> &mut Log {
        self.step(Step::put(number, row, key, payload))
    }

    pub fn erase(&mut self, number: u64, row: u32) -> &mut Log {
        self.step(Step::erase(number, row))
    }

    pub fn prepare(&mut self, number: u64) -> &mut Log {
        self.step(Step::prepare(number))
    }

    pub fn install(&mut self, number: u64) -> &mut Log {
        self.step(Step::install(number))
    }

    pub fn end(&mut self, number: u64) -> &mut Log {
        self.step(Step::end(number))
    }

    pub fn publish(&mut self, number: u64) -> &mut Log {
        self.step(Step::publish(number))
    }

    pub fn validate(&mut self, number: u64) -> &mut Log {
        self.step(Step::validate(number))
    }

    pub fn abort(&mut self, number: u64) -> &mut Log {
        self.step(Step::abort(number))
    }
}
