//! A run beside its transactions in turn: what they read and what they leave is the same.

use std::fmt;
use std::ops::AddAssign;

use engine::Driver;
use generator::Random;
use twin::{Content, Step, Store};

use crate::read_back::{reading, same_keys, some_keys};
use crate::run::Run;
use crate::turn::{log_of, Turn};
use crate::{compare, lines, number, report_length, shortened, show_steps, steps, Difference};

/// Where the turn is not as the run was.
#[derive(Debug)]
pub enum Apart {
    /// The engine is not as the twin, on the log or on the turn's: the twin's store says nothing of the engine's.
    FromTwin(Box<Difference>),
    Status(u64),
    Refused {
        step: Step,
        line: String,
    },
    /// Other rows; the place is the run's.
    Rows {
        place: usize,
        run: String,
        turn: String,
    },
    /// Another key or payload of a row that was read.
    Shown {
        place: usize,
        row: u32,
        run: Option<Content>,
        turn: Option<Content>,
    },
    Live(usize),
    /// Another key or payload of a row at the end.
    AtEnd {
        row: usize,
        run: Option<Content>,
        turn: Option<Content>,
    },
    /// Other rows of a key that was read back.
    ReadBack {
        key: u64,
        run: Vec<u32>,
        turn: Vec<u32>,
    },
}

impl fmt::Display for Apart {
    fn fmt(&self, to: &mut fmt::Formatter) -> fmt::Result {
        match self {
            Apart::FromTwin(difference) => write!(to, "{difference}"),
            Apart::Status(status) => write!(to, "in turn: status {status}"),
            Apart::Refused { step, line } => write!(to, "in turn {step:?} is refused: {line}"),
            Apart::Rows { place, run, turn } => write!(to, "step {place} of the run: {run}; in turn: {turn}"),
            Apart::Shown { place, row, run, turn } => {
                write!(to, "step {place} of the run, row {row} shows {run:?}; in turn {turn:?}")
            }
            Apart::Live(count) => write!(to, "in turn: {count} transactions are live at the end"),
            Apart::AtEnd { row, run, turn } => write!(to, "row {row} at the end of the run: {run:?}; in turn: {turn:?}"),
            Apart::ReadBack { key, run, turn } => {
                write!(to, "key {key} at the end of the run: rows {run:?}; read back in turn: {turn:?}")
            }
        }
    }
}

/// A log whose turn is apart from it.
pub struct Found {
    log: Vec<u8>,
    apart: Apart,
}

impl fmt::Display for Found {
    fn fmt(&self, to: &mut fmt::Formatter) -> fmt::Result {
        writeln!(to, "the log {:02x?} in turn is not as it was", self.log)?;
        show_steps(to, &self.log)?;
        write!(to, "{}", self.apart)
    }
}

/// What was compared.
#[derive(Clone, Copy, Debug, Default, PartialEq, Eq)]
pub struct Counts {
    pub transactions: u64,
    /// Those that ended behind one with a higher number.
    pub out_of_order: u64,
    pub reads: u64,
    /// The rows that the reads answered.
    pub rows: u64,
    /// The reads that answered a row of which the reader has a write pending.
    pub own_reads: u64,
    pub keys: u64,
    /// The keys that were not read back: too many rows carry them, or the numbers are used up.
    pub refused_keys: u64,
}

impl AddAssign for Counts {
    fn add_assign(&mut self, other: Counts) {
        self.transactions += other.transactions;
        self.out_of_order += other.out_of_order;
        self.reads += other.reads;
        self.rows += other.rows;
        self.own_reads += other.own_reads;
        self.keys += other.keys;
        self.refused_keys += other.refused_keys;
    }
}

/// Runs a log and then its transactions in turn; nothing where it is not replayed to its end or no transaction reaches its own.
pub fn check(driver: &mut Driver, log: &[u8], random: &mut Random) -> Result<Option<Counts>, Box<Found>> {
    let before = random.clone();
    match checked(driver, log, random) {
        Ok(counts) => Ok(counts),
        // such a log was shortened where it was found
        Err(apart @ Apart::FromTwin(_)) => Err(Box::new(Found { log: log.to_vec(), apart })),
        Err(apart) => Err(Box::new(shortest(driver, log, apart, &before))),
    }
}

/// The log without the records that can be left out.
fn shortest(driver: &mut Driver, log: &[u8], apart: Apart, random: &Random) -> Found {
    let mut found = Found { log: log.to_vec(), apart };
    found.log = shortened(log, |fewer| match checked(driver, fewer, &mut random.clone()) {
        Ok(_) => false,
        Err(apart) => {
            found.apart = apart;
            true
        }
    });
    found
}

fn checked(driver: &mut Driver, log: &[u8], random: &mut Random) -> Result<Option<Counts>, Apart> {
    let (status, lines) = replayed(driver, log)?;
    if status != 0 {
        return Ok(None);
    }
    let Some(run) = Run::of(steps(log), lines, Store::shown) else { return Ok(None) };
    let order = run.ended();
    if order.is_empty() {
        return Ok(None);
    }
    in_order(driver, &run, &order, random).map(Some)
}

/// The engine's status and lines, where the twin's are the same.
pub fn replayed(driver: &mut Driver, log: &[u8]) -> Result<(u64, Vec<String>), Apart> {
    let replayed = compare(driver, log, report_length(log)).map_err(Apart::FromTwin)?;
    Ok((replayed.answer >> 32, lines(&replayed.report).map(str::to_string).collect()))
}

/// The run beside its transactions of these numbers, one after another in this order; behind them some keys are read back.
pub fn in_order(driver: &mut Driver, run: &Run, order: &[u64], random: &mut Random) -> Result<Counts, Apart> {
    let Turn { steps, origins, clock } = Turn::of(run, order);
    let keys = some_keys(&steps, random);
    let (status, mut lines) = replayed(driver, &log_of(&[&steps[..], &reading(&keys, clock)].concat()))?;
    if status != 0 {
        return Err(Apart::Status(status));
    }
    let read_back = lines.split_off(steps.len());
    let turn = Run::of(steps, lines, Store::shown).expect("the run opened a store of these sizes");
    same(run, &turn, &origins)?;
    let keys_read = same_keys(&run.rows, &keys, &read_back)?;
    Ok(Counts {
        transactions: order.len() as u64,
        out_of_order: out_of_order(order),
        reads: turn.reads.len() as u64,
        rows: turn.reads.values().map(|read| read.rows.len() as u64).sum(),
        own_reads: turn.reads.values().filter(|read| read.own).count() as u64,
        keys: keys_read,
        refused_keys: keys.len() as u64 - keys_read,
    })
}

/// The turn is accepted as a whole, reads what the run read and leaves what it left; `origins` as those of [`Turn`].
pub fn same(run: &Run, turn: &Run, origins: &[Option<usize>]) -> Result<(), Apart> {
    all_accepted(turn)?;
    for (place, origin) in origins.iter().enumerate() {
        match origin {
            Some(origin) if matches!(turn.steps[place], Step::Rows { .. }) => same_read((run, *origin), (turn, place))?,
            _ => {}
        }
    }
    same_end(run, turn)
}

fn all_accepted(turn: &Run) -> Result<(), Apart> {
    match turn.steps.iter().zip(&turn.lines).find(|(_, line)| number(line) != 0) {
        Some((&step, line)) => Err(Apart::Refused { step, line: line.clone() }),
        None => Ok(()),
    }
}

/// The same rows by the engine's lines, and the same keys and payloads in them by the twin's store.
fn same_read((run, origin): (&Run, usize), (turn, place): (&Run, usize)) -> Result<(), Apart> {
    let [before, now] = [&run.lines[origin], &turn.lines[place]];
    if before != now {
        return Err(Apart::Rows { place: origin, run: before.clone(), turn: now.clone() });
    }
    let shown = run.reads[&origin].rows.iter().zip(&turn.reads[&place].rows);
    match shown.map(|(&before, &now)| (before, now)).find(|(before, now)| before != now) {
        Some(((row, run), (_, turn))) => Err(Apart::Shown { place: origin, row, run, turn }),
        None => Ok(()),
    }
}

fn same_end(run: &Run, turn: &Run) -> Result<(), Apart> {
    if turn.live != 0 {
        return Err(Apart::Live(turn.live));
    }
    match (0..run.rows.len()).find(|&row| run.rows[row] != turn.rows[row]) {
        Some(row) => Err(Apart::AtEnd { row, run: run.rows[row], turn: turn.rows[row] }),
        None => Ok(()),
    }
}

/// How many numbers stand behind a higher one.
fn out_of_order(order: &[u64]) -> u64 {
    let mut highest = 0;
    let mut count = 0;
    for &number in order {
        count += u64::from(number < highest);
        highest = highest.max(number);
    }
    count
}
