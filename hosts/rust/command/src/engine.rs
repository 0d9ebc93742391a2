//! The one place that calls the engine.

use toruxeng::{replay, Line, Report, Stopped, LONGEST_LINE};

/// The longest line answers a record of 16 bytes; no other line is longer for each byte of its record.
const ROOM_FOR_A_BYTE: usize = LONGEST_LINE.div_ceil(16);

/// The lines of a report, and why the replay stopped where it did not reach the log's end.
pub struct Replayed<'a> {
    pub lines: &'a str,
    pub stopped: Option<Stopped>,
}

impl<'a> Replayed<'a> {
    /// The answer to the last step.
    pub fn last(&self) -> Option<Line<'a>> {
        let line = self.lines.split_inclusive('\n').next_back()?;
        Report::of_bytes(line.as_bytes())?.last()
    }
}

/// The engine with the room that its reports are written to, which is kept from one replay to the next.
#[derive(Default)]
pub struct Engine {
    room: Vec<u8>,
}

impl Engine {
    pub fn replay(&mut self, log: &[u8]) -> Replayed<'_> {
        let needed = log.len().saturating_mul(ROOM_FOR_A_BYTE);
        if self.room.len() < needed {
            self.room = vec![0; needed];
        }
        let written = replay(log, &mut self.room).map(|report| report.bytes().len());
        let lines = &self.room[..written.unwrap_or_else(|stopped| stopped.written)];
        Replayed { lines: std::str::from_utf8(lines).expect("a report is words and numbers"), stopped: written.err() }
    }
}
