//! A log that was replayed to its end.

use std::collections::BTreeMap;

use twin::{Content, Step, Store, Values};

use crate::number;

/// How a row shows to a transaction; `Store::shown` is the right one.
pub type Look = fn(&Store, u64, u32) -> Option<Content>;

/// What the rows that a step answered show to the transaction that asked.
#[derive(Clone, Debug, PartialEq, Eq)]
pub struct Read {
    pub rows: Vec<(u32, Option<Content>)>,
    /// Whether it has a pending write of one of them itself.
    pub own: bool,
}

impl Read {
    fn of(store: &Store, number: u64, rows: &[u32], look: Look) -> Read {
        Read {
            rows: rows.iter().map(|&row| (row, look(store, number, row))).collect(),
            own: rows.iter().any(|&row| store.is_pending(number, row)),
        }
    }
}

/// The steps, the lines that the engine answered, and what the twin's store showed meanwhile.
#[derive(Clone, Debug)]
pub struct Run {
    pub steps: Vec<Step>,
    pub lines: Vec<String>,
    /// The clock that the store was opened with.
    pub clock: u64,
    /// By the place of the step that answered the rows.
    pub reads: BTreeMap<usize, Read>,
    /// What a snapshot taken at the end sees in each row.
    pub rows: Vec<Option<Content>>,
    /// How many transactions are live at the end.
    pub live: usize,
}

impl Run {
    /// Steps with a line for each, or nothing where they do not open a store.
    pub fn of(steps: Vec<Step>, lines: Vec<String>, look: Look) -> Option<Run> {
        let Step::Open { rows, versions, buckets, clock } = *steps.first()? else { return None };
        let mut store = Store::open(rows, versions, buckets, clock).ok()?;
        let mut reads = BTreeMap::new();
        for (place, step) in steps.iter().enumerate().skip(1) {
            let answer = store.step(step);
            if let (&Step::Rows { number, .. }, Ok(Values::Rows(rows))) = (step, answer) {
                reads.insert(place, Read::of(&store, number, &rows, look));
            }
        }
        Some(Run { steps, lines, clock, reads, rows: store.seen_now(), live: store.live().count() })
    }

    /// Each step of a transaction that was accepted, with its place and the transaction's number.
    pub fn accepted(&self) -> impl Iterator<Item = (usize, Step, u64)> + '_ {
        let told = self.steps.iter().zip(&self.lines).enumerate();
        told.filter(|(_, (_, line))| number(line) == 0)
            .filter_map(|(place, (&step, line))| Some((place, step, asking(step, line)?)))
    }

    /// The transactions whose end was accepted, in the order of their ends.
    pub fn ended(&self) -> Vec<u64> {
        self.accepted().filter(|(_, step, _)| matches!(step, Step::End { .. })).map(|(_, _, number)| number).collect()
    }
}

/// The transaction of an accepted step: begin answers its number, the others name it.
fn asking(step: Step, line: &str) -> Option<u64> {
    match step {
        Step::Begin => line.split(' ').nth(2)?.parse().ok(),
        _ => step.number(),
    }
}
