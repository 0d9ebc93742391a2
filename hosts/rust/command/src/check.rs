//! `toruxeng check`: is a log well formed, and where not.

use std::collections::BTreeMap;
use std::fmt;

use toruxeng::{Kind, Malformed, Refusal, Step, Steps};

use crate::engine::Engine;
use crate::Done;

/// The good records of a log by kind, and the first that is not.
pub struct Checked {
    pub counts: BTreeMap<Kind, u64>,
    pub fault: Option<Fault>,
}

/// A record, counted from 1, from which on a replay does not go.
#[derive(Debug)]
pub struct Fault {
    pub record: u64,
    pub why: Why,
}

#[derive(Debug)]
pub enum Why {
    NoStep(Malformed),
    /// An open elsewhere than in first place, or another step there.
    Misplaced {
        at: usize,
        kind: Kind,
    },
    /// Well formed, but a replay ends here with status 1 and reads nothing behind it.
    OpenRefused,
}

impl fmt::Display for Fault {
    fn fmt(&self, to: &mut fmt::Formatter) -> fmt::Result {
        write!(to, "record {}: ", self.record)?;
        match &self.why {
            Why::NoStep(malformed) => write!(to, "{malformed}"),
            Why::Misplaced { at, kind: Kind::Open } => {
                write!(to, "the record at byte {at} is an open, which only the first may be")
            }
            Why::Misplaced { at, kind } => {
                write!(to, "the record at byte {at} is a {}, but the first must be an open", kind.word())
            }
            Why::OpenRefused => write!(to, "the open is {}; nothing behind it is read", Refusal::OpenOutOfRange),
        }
    }
}

pub fn check(log: &[u8]) -> Done {
    let checked = checked(log);
    let counts = in_words(&checked.counts);
    match checked.fault {
        None => Done { output: format!("well formed: {counts}\n").into(), wrong: None },
        Some(fault) => Done { output: format!("good before the fault: {counts}\n").into(), wrong: Some(fault.to_string()) },
    }
}

pub fn checked(log: &[u8]) -> Checked {
    let mut counts = BTreeMap::new();
    let mut steps = Steps::of(log);
    let mut record = 0;
    loop {
        let at = steps.at();
        let Some(step) = steps.next() else { return Checked { counts, fault: None } };
        record += 1;
        match good(step, record, at) {
            Ok(kind) => *counts.entry(kind).or_default() += 1,
            Err(why) => return Checked { counts, fault: Some(Fault { record, why }) },
        }
    }
}

/// The kind of a record that a replay goes on from.
fn good(step: Result<Step, Malformed>, record: u64, at: usize) -> Result<Kind, Why> {
    let step = step.map_err(Why::NoStep)?;
    let (kind, is_first) = (step.kind(), record == 1);
    if is_first != (kind == Kind::Open) {
        return Err(Why::Misplaced { at, kind });
    }
    // nothing else than its sizes and clock can be wrong with a whole open in first place
    if is_first && Engine::default().replay(&step.bytes()).stopped.is_some() {
        return Err(Why::OpenRefused);
    }
    Ok(kind)
}

fn in_words(counts: &BTreeMap<Kind, u64>) -> String {
    let by_kind: Vec<String> = counts.iter().map(|(kind, count)| format!("{count} {}", kind.word())).collect();
    match counts.values().sum() {
        0 => "no record".to_string(),
        1 => format!("1 record ({})", by_kind[0]),
        records => format!("{records} records ({})", by_kind.join(", ")),
    }
}
