//! A whole log into a report.

use std::fmt::Write;

use crate::lent::{Words, AMPLE};
use crate::limits::{PENDING_WRITES, READ_RECORDS};
use crate::records::{read_record, Step};
use crate::store::{Answer, Store, Values, Verdict};

const DOES_NOT_FIT: u64 = 10;
const MALFORMED: u64 = 15;

struct Report<'a> {
    bytes: &'a mut [u8],
    written: usize,
    line: String,
}

impl Report<'_> {
    /// Writes a whole line, or nothing of it where it does not fit.
    fn write(&mut self, word: &str, answer: &Answer) -> Result<(), u64> {
        self.line.clear();
        put_line(&mut self.line, word, answer).expect("a string takes every line");
        let room = self.bytes.len().min(u32::MAX as usize);
        let end = self.written + self.line.len();
        if end > room {
            return Err(DOES_NOT_FIT);
        }
        self.bytes[self.written..end].copy_from_slice(self.line.as_bytes());
        self.written = end;
        Ok(())
    }
}

fn put_line(line: &mut String, word: &str, answer: &Answer) -> std::fmt::Result {
    match answer {
        Err(refusal) => write!(line, "{word} {refusal}")?,
        Ok(values) => {
            write!(line, "{word} 0")?;
            match values {
                Values::Nothing => {}
                Values::Number(value) | Values::Stamp(value) => write!(line, " {value}")?,
                Values::Count(count) => write!(line, " {count}")?,
                Values::Rows(rows) => {
                    write!(line, " {}", rows.len())?;
                    for row in rows {
                        write!(line, " {row}")?;
                    }
                }
                Values::Verdict(Verdict::Clear) => line.push_str(" 0"),
                Values::Verdict(Verdict::Stamp { bucket, captured, present }) => {
                    write!(line, " 1 {bucket} {captured} {present}")?
                }
                Values::Verdict(Verdict::Record { row, pointer }) => write!(line, " 2 {row} {pointer}")?,
                Values::Verdict(Verdict::Marked) => line.push_str(" 3"),
            }
        }
    }
    line.push('\n');
    Ok(())
}

/// Replays `log` and answers status × 4,294,967,296 + bytes written to the front of `report`.
pub fn replay(log: &[u8], report: &mut [u8]) -> u64 {
    replay_lent(log, report, &AMPLE)
}

/// The same over tables of these lengths.
pub fn replay_lent(log: &[u8], report: &mut [u8], lent: &Words) -> u64 {
    let mut report = Report { bytes: report, written: 0, line: String::new() };
    let status = replay_into(log, lent, &mut report).err().unwrap_or(0);
    status << 32 | report.written as u64
}

/// The status, and the report where there is room for all of it.
pub fn whole_report(log: &[u8]) -> (u64, Vec<u8>) {
    // the longest line has a row for each read record and for each pending write; no record is shorter than 4 bytes
    const LONGEST_LINE: usize = "rows 0 144\n".len() + (READ_RECORDS + PENDING_WRITES) * " 1023".len();
    let mut report = vec![0; (log.len() / 4 + 1) * LONGEST_LINE];
    let answer = replay(log, &mut report);
    report.truncate(answer as u32 as usize);
    (answer >> 32, report)
}

/// Ends well, or with the status that stops the replay.
fn replay_into(log: &[u8], lent: &Words, report: &mut Report) -> Result<(), u64> {
    let mut store = None;
    let mut rest = log;
    while !rest.is_empty() {
        let Some((step, next)) = read_record(rest) else { return malformed(report) };
        let answer = match (&mut store, step) {
            (None, Step::Open { rows, versions, buckets, clock }) => {
                let opened = Store::open_lent(rows, versions, buckets, clock, lent);
                let answer = opened.as_ref().map(|_| Values::Nothing).map_err(|&refusal| refusal);
                store = opened.ok();
                answer
            }
            (None, _) | (Some(_), Step::Open { .. }) => return malformed(report),
            (Some(store), step) => store.step(&step),
        };
        report.write(step.word(), &answer)?;
        if let (None, Err(refusal)) = (&store, answer) {
            return Err(refusal.into());
        }
        rest = next;
    }
    Ok(())
}

fn malformed(report: &mut Report) -> Result<(), u64> {
    report.write("bad", &Err(MALFORMED as u32))?;
    Err(MALFORMED)
}
