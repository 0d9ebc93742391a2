//! The transactions of a log, each whole, as a store runs them that has one at a time.

use std::collections::BTreeMap;

use toruxeng::{Line, Report, Values};
use twin::Step;

/// What an accepted step asks of a store.
#[derive(Clone, Debug, PartialEq, Eq)]
pub enum Operation {
    /// A read that was finished, and the rows that the report has for it.
    Read {
        key: u64,
        rows: Vec<u32>,
    },
    Put {
        row: u32,
        key: u64,
        payload: u64,
    },
    Erase {
        row: u32,
    },
}

/// How a transaction is finished.
#[derive(Clone, Copy, Debug, PartialEq, Eq)]
pub enum Finish {
    /// It reached end, which nothing takes back: what is left to do is its publish.
    Ended,
    Aborted,
}

/// What was accepted of a transaction.
#[derive(Clone, Debug, PartialEq, Eq)]
pub struct Transaction {
    pub operations: Vec<Operation>,
    pub finish: Finish,
}

/// All of a log.
#[derive(Clone, Debug, Default, PartialEq, Eq)]
pub struct Transactions {
    /// In the order of their ends and aborts: those that ended read and leave the same in this order, one after another (docs/IN-TURN.md).
    pub finished: Vec<Transaction>,
    /// How many neither end nor are aborted.
    pub unfinished: usize,
}

impl Transactions {
    /// Of a log and its report, which has a line for each record.
    ///
    /// # Panics
    /// Where it is not the log's report.
    pub fn of(log: &[u8], report: &[u8]) -> Transactions {
        let report = Report::of_bytes(report).expect("a report of document 01");
        let mut told = Told::default();
        let mut rest = log;
        for line in report.lines() {
            let (step, next) = twin::read_record(rest).expect("a record for each line");
            told.follow(step, line);
            rest = next;
        }
        assert!(rest.is_empty(), "a line for each record");
        Transactions { finished: told.finished, unfinished: told.live.len() }
    }
}

/// A transaction that is not finished yet.
#[derive(Default)]
struct Live {
    operations: Vec<Operation>,
    /// The key of the last capture.
    captured: u64,
}

/// What the lines so far tell.
#[derive(Default)]
struct Told {
    live: BTreeMap<u64, Live>,
    finished: Vec<Transaction>,
}

impl Told {
    /// One step more, with its line.
    fn follow(&mut self, step: Step, line: Line) {
        match (step, line.answer) {
            (_, Err(_)) => {}
            (Step::Begin, Ok(Values::Number(number))) => {
                self.live.insert(number, Live::default());
            }
            (Step::Capture { number, key }, _) => self.live(number).captured = key,
            (Step::Rows { number, .. }, Ok(Values::Rows(rows))) => {
                let live = self.live(number);
                live.operations.push(Operation::Read { key: live.captured, rows: rows.collect() });
            }
            (Step::Put { number, row, key, payload }, _) => {
                self.live(number).operations.push(Operation::Put { row, key, payload })
            }
            (Step::Erase { number, row }, _) => self.live(number).operations.push(Operation::Erase { row }),
            (Step::End { number }, _) => self.finish(number, Finish::Ended),
            (Step::Abort { number }, _) => self.finish(number, Finish::Aborted),
            _ => {}
        }
    }

    /// The live transaction of this number.
    fn live(&mut self, number: u64) -> &mut Live {
        self.live.get_mut(&number).expect("an accepted step names a live transaction")
    }

    /// Moves it to those that are finished.
    fn finish(&mut self, number: u64, finish: Finish) {
        let live = self.live.remove(&number).expect("an accepted step names a live transaction");
        self.finished.push(Transaction { operations: live.operations, finish });
    }
}
