//! What a step answered, and what of that does not only say who came first.

use std::fmt;

use toruxeng::{Advice, Line, Refusal, Values, Verdict};

/// An answer without transaction numbers and stamps, which only say who came first.
#[derive(Clone, Debug, PartialEq, Eq, Hash, PartialOrd, Ord)]
pub enum Told {
    Accepted,
    Count(u64),
    Rows(Vec<u32>),
    Refused(Refusal),
    /// Verdict 0 of a transaction that finished no read.
    NothingRead,
    Verdict(u32),
}

/// An answer whole, but for what a verdict says beside its code.
#[derive(Clone, Debug)]
pub struct Answer {
    pub told: Told,
    pub number: Option<Number>,
}

#[derive(Clone, Copy, Debug)]
pub enum Number {
    Transaction(u64),
    Stamp(u64),
}

impl Number {
    pub fn value(self) -> u64 {
        match self {
            Number::Transaction(value) | Number::Stamp(value) => value,
        }
    }
}

impl Answer {
    /// The answer of a line to a transaction that has finished a read, or has not.
    pub fn of(line: &Line, has_read: bool) -> Answer {
        let told = match &line.answer {
            Err(refusal) => Told::Refused(*refusal),
            Ok(Values::Count(count)) => Told::Count(*count),
            Ok(Values::Rows(rows)) => Told::Rows(rows.clone().collect()),
            Ok(Values::Verdict(Verdict::Clear)) if !has_read => Told::NothingRead,
            Ok(Values::Verdict(verdict)) => Told::Verdict(code(verdict)),
            Ok(Values::Nothing | Values::Number(_) | Values::Stamp(_)) => Told::Accepted,
        };
        let number = match line.answer {
            Ok(Values::Number(number)) => Some(Number::Transaction(number)),
            Ok(Values::Stamp(stamp)) => Some(Number::Stamp(stamp)),
            _ => None,
        };
        Answer { told, number }
    }
}

/// The verdict's number in a report.
fn code(verdict: &Verdict) -> u32 {
    match verdict {
        Verdict::Clear => 0,
        Verdict::StampChanged { .. } => 1,
        Verdict::RowChanged { .. } => 2,
        Verdict::Marked => 3,
    }
}

impl fmt::Display for Told {
    fn fmt(&self, to: &mut fmt::Formatter) -> fmt::Result {
        match self {
            Told::Accepted => write!(to, "done"),
            Told::Count(1) => write!(to, "1 candidate"),
            Told::Count(count) => write!(to, "{count} candidates"),
            Told::Rows(rows) => match &rows[..] {
                [] => write!(to, "no row"),
                [row] => write!(to, "row {row}"),
                [first, others @ ..] => {
                    write!(to, "rows {first}")?;
                    others.iter().try_for_each(|row| write!(to, " {row}"))
                }
            },
            Told::Verdict(code) => write!(to, "verdict {code}"),
            Told::NothingRead => write!(to, "verdict 0 of nothing read"),
            Told::Refused(refusal) => write!(to, "refused {}", refusal.number()),
        }
    }
}

impl fmt::Display for Answer {
    fn fmt(&self, to: &mut fmt::Formatter) -> fmt::Result {
        match self.number {
            None => self.told.fmt(to),
            Some(Number::Transaction(number)) => write!(to, "transaction {number}"),
            Some(Number::Stamp(stamp)) => write!(to, "stamp {stamp}"),
        }
    }
}

impl Told {
    /// What a refusal or a verdict means, and what to do then; the others speak for themselves.
    pub fn meaning(&self) -> Option<String> {
        let words = match self {
            Told::Refused(refusal) => return Some(format!("{refusal}; {}", advice(refusal.advice()))),
            Told::NothingRead => "no read was finished, so this says nothing of any key",
            Told::Verdict(0) => "what was read stands",
            Told::Verdict(1) => "the stamp of a bucket that was read has changed; abort and begin anew",
            Told::Verdict(2) => "a row that was read has been written; abort and begin anew",
            Told::Verdict(_) => "marked by a capture that found a stale stamp; abort and begin anew",
            Told::Accepted | Told::Count(_) | Told::Rows(_) => return None,
        };
        Some(format!("{self}: {words}"))
    }
}

fn advice(advice: Advice) -> &'static str {
    match advice {
        Advice::TryLater => "try later",
        Advice::BeginAnew => "abort and begin anew",
        Advice::MakeRoom => "a limit",
        Advice::Correct => "the script is wrong, or this follows on a refusal",
    }
}
