//! The engine beside the twin.

use std::fmt;

use engine::{Driver, Replayed};
use twin::Step;

pub mod in_turn;
pub mod lent;
mod program;
pub mod read_back;
mod run;
mod turn;

pub use program::{asked, random_log, Progress};
pub use run::{Look, Read, Run};
pub use turn::{log_of, Turn};

/// A log that the two answer differently, and their answers.
#[derive(Debug)]
pub struct Difference {
    log: Vec<u8>,
    room: usize,
    engine: Replayed,
    twin: (u64, Vec<u8>),
}

impl fmt::Display for Difference {
    fn fmt(&self, to: &mut fmt::Formatter) -> fmt::Result {
        writeln!(to, "engine and twin differ on the log {:02x?}, room {}", self.log, self.room)?;
        show_steps(to, &self.log)?;
        let report = |bytes: &[u8]| String::from_utf8_lossy(bytes).into_owned();
        writeln!(to, "engine: status {}, report\n{}", self.engine.answer >> 32, report(&self.engine.report))?;
        write!(to, "twin: status {}, report\n{}", self.twin.0 >> 32, report(&self.twin.1))
    }
}

fn show_steps(to: &mut fmt::Formatter, log: &[u8]) -> fmt::Result {
    steps(log).iter().try_for_each(|step| writeln!(to, "    {step:?}"))
}

/// The steps of a log; what is no record ends them.
pub fn steps(log: &[u8]) -> Vec<Step> {
    let mut steps = Vec::new();
    let mut rest = log;
    while let Some((step, next)) = twin::read_record(rest) {
        steps.push(step);
        rest = next;
    }
    steps
}

/// The lines of a report, without their ends.
///
/// # Panics
/// Where it is no text.
pub fn lines(report: &[u8]) -> std::str::Lines<'_> {
    std::str::from_utf8(report).expect("a report is text").lines()
}

/// The number behind a line's word.
///
/// # Panics
/// Where there is none.
pub fn number(line: &str) -> u32 {
    line.split(' ').nth(1).and_then(|number| number.parse().ok()).expect("a line has its number")
}

/// What the twin answers and writes.
pub fn twin_replay(log: &[u8], room: usize) -> (u64, Vec<u8>) {
    written(room, |report| twin::replay(log, report))
}

/// The answer of a replay and what it writes to a report of so much room.
fn written(room: usize, replay: impl FnOnce(&mut [u8]) -> u64) -> (u64, Vec<u8>) {
    let mut report = vec![0; room];
    let answer = replay(&mut report);
    report.truncate(answer as u32 as usize);
    (answer, report)
}

/// The report's length where there is room for all of it.
pub fn report_length(log: &[u8]) -> usize {
    twin::whole_report(log).1.len()
}

/// Both replay the log; where they differ, the difference, on a log from which no record can be left out.
pub fn compare(driver: &mut Driver, log: &[u8], room: usize) -> Result<Replayed, Box<Difference>> {
    compared(log, room, |log| (driver.replay(log, room), twin_replay(log, room)))
}

/// What the engine gives back and what the twin answers and writes.
type Both = (Replayed, (u64, Vec<u8>));

fn compared(log: &[u8], room: usize, mut both: impl FnMut(&[u8]) -> Both) -> Result<Replayed, Box<Difference>> {
    let (engine, twin) = both(log);
    if agree(&engine, &twin) {
        return Ok(engine);
    }
    let log = shortened(log, |fewer| {
        let (engine, twin) = both(fewer);
        !agree(&engine, &twin)
    });
    let (engine, twin) = both(&log);
    Err(Box::new(Difference { log, room, engine, twin }))
}

fn agree(engine: &Replayed, twin: &(u64, Vec<u8>)) -> bool {
    (engine.answer, &engine.report) == (twin.0, &twin.1)
}

/// Leaves records out, half of the log first and single ones last, as long as it still differs.
fn shortened(log: &[u8], mut differs: impl FnMut(&[u8]) -> bool) -> Vec<u8> {
    let mut records = records(log);
    let mut count = records.len() / 2;
    while count > 0 {
        let mut place = 0;
        while place < records.len() {
            let mut fewer = records.clone();
            fewer.drain(place..records.len().min(place + count));
            if differs(&fewer.concat()) {
                records = fewer;
            } else {
                place += count;
            }
        }
        count /= 2;
    }
    records.concat()
}

/// The log cut into its records; what is no record comes last, in one piece.
fn records(log: &[u8]) -> Vec<&[u8]> {
    let mut records = Vec::new();
    let mut rest = log;
    while !rest.is_empty() {
        let next = twin::read_record(rest).map_or(&[][..], |(_, next)| next);
        records.push(&rest[..rest.len() - next.len()]);
        rest = next;
    }
    records
}
