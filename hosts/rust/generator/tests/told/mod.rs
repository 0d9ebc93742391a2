//! What the twin tells of a log, step by step.

use twin::Step;

/// What comes less often tries too little.
pub const OFTEN: u64 = 20;

/// The whole records that have a line, each with the number behind its word.
pub fn told(log: &[u8]) -> Vec<(Step, u32)> {
    let report = String::from_utf8(twin::whole_report(log).1).expect("a report is text");
    let mut rest = log;
    let mut told = Vec::new();
    for line in report.lines() {
        let Some((step, next)) = twin::read_record(rest) else { break };
        rest = next;
        let number = line.split(' ').nth(1).and_then(|number| number.parse().ok()).expect("a line has its number");
        told.push((step, number));
    }
    told
}
