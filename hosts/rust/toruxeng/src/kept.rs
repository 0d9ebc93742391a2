//! The kept log of a store: which steps stay in it, and one replay for each question.
//!
//! A step that changed nothing is not kept: a refused one, a validate, the steps of a read that was refused half way.
//! Nor are transactions that ended in abort, where nothing of another stands behind their begins: without them the store is the
//! same, but for the clock, which every begin moves. So they go before anything is appended behind them, and never later.

use std::collections::BTreeMap;

use crate::error::Error;
use crate::lent::{replay_lent, Sizes, Tables};
use crate::log::longest_line;
use crate::replay::{Status, Stopped};
use crate::report::{Kind, Line, Lines, Refusal, Report, Values};
use crate::step::{can_begin_a_record, Step, Steps};

/// How far log and report go at some time, and the clock then.
#[derive(Clone, Copy)]
struct Place {
    log: usize,
    report: usize,
    clock: u64,
}

/// A transaction that has records in the kept log.
struct Trace {
    number: u64,
    before: Place,
    /// Where its last record ends.
    end: usize,
    live: bool,
    marked: bool,
}

pub(crate) struct Kept {
    /// Behind the end stand the steps that were asked last and are not kept.
    log: Vec<u8>,
    report: Vec<u8>,
    tables: Tables,
    end: Place,
    /// Of the live transactions, and of those that ended in abort since the last publish; in the order of their begins.
    traces: Vec<Trace>,
    /// Where the last publish ends, or the open or the restart, before which nothing is taken out.
    published: usize,
}

impl Kept {
    pub(crate) fn open(rows: u32, versions: u32, buckets: u32, clock: u64) -> Result<Kept, Error> {
        let mut kept = Kept::empty(Sizes { rows, versions, buckets }, clock);
        kept.accept(&[Step::open(rows, versions, buckets, clock)], |_| ())?;
        Ok(kept.published_here())
    }

    fn empty(sizes: Sizes, clock: u64) -> Kept {
        Kept {
            log: Vec::new(),
            report: Vec::new(),
            tables: Tables::for_sizes(sizes),
            end: Place { log: 0, report: 0, clock },
            traces: Vec::new(),
            published: 0,
        }
    }

    /// From bytes that may end in the middle of a record; what is live in them is ended by steps behind them.
    pub(crate) fn restart(bytes: &[u8]) -> Result<Kept, Error> {
        let steps = whole_steps(bytes)?;
        // the fields of an open; the replay finds what is none and has as many
        let Some(&[rows, versions, buckets, clock]) = steps.first().map(Step::fields) else { return Err(MALFORMED) };
        let mut kept = Kept::empty(Sizes { rows: rows as u32, versions: versions as u32, buckets: buckets as u32 }, clock);
        let endings = endings(&steps, kept.ask(&steps)?.lines());
        kept.keep(&steps);
        kept.accept(&endings, |_| ())?;
        Ok(kept.published_here())
    }

    /// Of a log in which nothing is live.
    fn published_here(self) -> Kept {
        Kept { published: self.end.log, ..self }
    }

    pub(crate) fn bytes(&self) -> &[u8] {
        &self.log[..self.end.log]
    }

    pub(crate) fn published(&self) -> &[u8] {
        &self.log[..self.published]
    }

    /// The number of the next transaction.
    pub(crate) fn clock(&self) -> u64 {
        self.end.clock
    }

    pub(crate) fn begin(&mut self) -> Result<u64, Error> {
        let before = self.end;
        self.accept(&[Step::begin()], |_| ())?;
        self.traces.push(Trace { number: before.clock, before, end: self.end.log, live: true, marked: false });
        Ok(before.clock)
    }

    /// Takes steps that end in the transaction's publish.
    pub(crate) fn publish(&mut self, number: u64, steps: &[Step]) -> Result<(), Error> {
        self.accept(steps, |_| ())?;
        self.traces.retain(|trace| trace.live && trace.number != number);
        self.published = self.end.log;
        Ok(())
    }

    /// Ends a live transaction; one that was published is live no more.
    pub(crate) fn abort(&mut self, number: u64) {
        let Some(trace) = self.traces.iter_mut().find(|trace| trace.live && trace.number == number) else { return };
        trace.live = false;
        match self.first_to_take_out() {
            Some(first) => {
                self.end = self.traces[first].before;
                self.traces.truncate(first);
            }
            // abort is not refused here; where the report is full, no step can follow anyway
            None => _ = self.accept(&[Step::abort(number)], |_| ()),
        }
    }

    /// The first trace behind whose begin all records are of transactions that began there and ended in abort.
    fn first_to_take_out(&self) -> Option<usize> {
        let mut first = None;
        let mut end_of_earlier = self.published;
        for (index, trace) in self.traces.iter().enumerate() {
            if trace.live {
                first = None;
            } else if first.is_none() && end_of_earlier <= trace.before.log {
                first = Some(index);
            }
            end_of_earlier = end_of_earlier.max(trace.end);
        }
        first
    }

    /// Keeps the steps where all are accepted, and else none of them; only the capture that marks its transaction stays.
    pub(crate) fn accept<T>(&mut self, steps: &[Step], of: impl FnOnce(&[Values]) -> T) -> Result<T, Error> {
        let answer = self.answer(steps, of);
        match answer {
            Ok(_) => self.keep(steps),
            Err(Error::Refused(Refusal::Stale)) => self.keep_mark(steps),
            Err(_) => {}
        }
        answer
    }

    /// Keeps the first stale capture of a transaction; those behind it, and the puts and erases that get 8, change nothing.
    fn keep_mark(&mut self, steps: &[Step]) {
        let Some(capture) = steps.first().filter(|step| step.kind() == Kind::Capture) else { return };
        let unmarked = self.traces.iter_mut().find(|trace| Some(trace.number) == capture.number() && !trace.marked);
        if let Some(trace) = unmarked {
            trace.marked = true;
            self.keep(&steps[..1]);
        }
    }

    /// What `of` makes of the steps' values, or the first refusal; nothing is kept.
    pub(crate) fn answer<T>(&mut self, steps: &[Step], of: impl FnOnce(&[Values]) -> T) -> Result<T, Error> {
        let values = self.ask(steps)?.lines().map(|line| line.answer).collect::<Result<Vec<_>, _>>()?;
        Ok(of(&values))
    }

    /// One replay of the kept log with the steps behind it: the lines of these steps.
    fn ask(&mut self, steps: &[Step]) -> Result<Report<'_>, Stopped> {
        self.log.truncate(self.end.log);
        self.log.extend(steps.iter().flat_map(Step::bytes));
        let room = self.end.report + steps.iter().map(|step| longest_line(step.kind())).sum::<usize>();
        if self.report.len() < room {
            self.report.resize(room, 0);
        }
        let written = replay_lent(&self.log, &mut self.report[..room], self.tables.lend())?.bytes().len();
        Ok(Report::of_engine(&self.report[self.end.report..written]))
    }

    /// Keeps the first of the steps that were asked last.
    fn keep(&mut self, steps: &[Step]) {
        let lines = self.report[self.end.report..].split_inclusive(|&byte| byte == b'\n');
        for (step, line) in steps.iter().zip(lines) {
            self.end.log += step.bytes().len();
            self.end.report += line.len();
            self.end.clock = Line::of_bytes(line).and_then(|line| line.moved_clock()).unwrap_or(self.end.clock);
        }
        let number = steps.first().and_then(Step::number);
        self.traces.iter_mut().filter(|trace| Some(trace.number) == number).for_each(|trace| trace.end = self.end.log);
    }
}

/// What the replay answers to bytes that are no log.
const MALFORMED: Error = Error::Stopped(Stopped { status: Status::LogMalformed, written: 0 });

/// The steps of a log that may be cut in its last record.
fn whole_steps(bytes: &[u8]) -> Result<Vec<Step>, Error> {
    let mut steps = Vec::new();
    for step in Steps::of(bytes) {
        match step {
            Ok(step) => steps.push(step),
            Err(malformed) if can_begin_a_record(&bytes[malformed.at..]) => {}
            Err(_) => return Err(MALFORMED),
        }
    }
    Ok(steps)
}

/// Steps that end all that is live behind these, in rising number: what was installed goes on to its publish, the rest aborts.
fn endings(steps: &[Step], lines: Lines) -> Vec<Step> {
    let mut live = BTreeMap::new();
    for (step, line) in steps.iter().zip(lines) {
        match (step.kind(), step.number(), line.answer) {
            (kind, _, Ok(Values::Number(number))) | (kind @ (Kind::Install | Kind::End), Some(number), Ok(_)) => {
                live.insert(number, kind);
            }
            (Kind::Publish | Kind::Abort, Some(number), Ok(_)) => {
                live.remove(&number);
            }
            _ => {}
        }
    }
    let ending = |(number, kind)| match kind {
        Kind::Install => vec![Step::end(number), Step::publish(number)],
        Kind::End => vec![Step::publish(number)],
        _ => vec![Step::abort(number)],
    };
    live.into_iter().flat_map(ending).collect()
}
