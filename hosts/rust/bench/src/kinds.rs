//! Instructions of a step by its kind, proved engine: of each kind some records are taken out of a log.

use std::ops::Range;

use toruxeng::{Kind, Steps};

use crate::instructions;

/// So many records of a kind are counted.
const SAMPLES: usize = 32;

/// The steps of one kind in a log.
#[derive(Clone, Copy, Debug)]
pub struct OfAKind {
    pub kind: Kind,
    pub steps: usize,
    /// Of one of them, its line included; nothing where there is none.
    pub instructions: Option<f64>,
}

impl OfAKind {
    /// Of one kind in a log, whose records these are; or why they were not counted.
    pub fn count(kind: Kind, log: &[u8], records: &[Record]) -> Result<OfAKind, String> {
        let records = of_kind(kind, records);
        let samples = spread(&records, SAMPLES);
        let of_one = |all: u64| all as f64 / samples.len() as f64;
        let instructions = match samples[..] {
            [] => None,
            _ => Some(of_one(instructions::of_parts(log, &samples)?)),
        };
        Ok(OfAKind { kind, steps: records.len(), instructions })
    }

    /// Of all its steps, if each takes as much as those that were counted.
    pub fn together(&self) -> f64 {
        self.instructions.unwrap_or(0.0) * self.steps as f64
    }
}

/// The kinds that a log can have.
pub fn all() -> impl Iterator<Item = Kind> {
    Kind::ALL.into_iter().filter(|&kind| kind != Kind::Bad)
}

/// The kind of a record, and the bytes of the log that it takes.
pub type Record = (Kind, Range<usize>);

/// The first records of a log, at most so many.
///
/// # Panics
/// Where something else than a record stands among them.
pub fn first_records(log: &[u8], most: usize) -> Vec<Record> {
    let mut steps = Steps::of(log);
    let mut records = Vec::new();
    while records.len() < most {
        let start = steps.at();
        let Some(step) = steps.next() else { break };
        records.push((step.expect("a log of records").kind(), start..steps.at()));
    }
    records
}

/// The bytes of those of one kind.
fn of_kind(kind: Kind, records: &[Record]) -> Vec<Range<usize>> {
    records.iter().filter(|(other, _)| *other == kind).map(|(_, bytes)| bytes.clone()).collect()
}

/// So many of the records, spread evenly over them; all where there are no more.
pub fn spread(records: &[Range<usize>], most: usize) -> Vec<Range<usize>> {
    let count = records.len().min(most);
    // each stands in the middle of its share
    (0..count).map(|place| records[(2 * place + 1) * records.len() / (2 * count)].clone()).collect()
}
