//! `in_turn LOGS [SEED]`: so many random logs and, of each, the transactions that reached their end once more, one after another; ends at
//! the first log where these read or leave something else than before.

use std::process::ExitCode;
use std::time::Instant;

use compare::in_turn::{check, Counts, Found};
use compare::{asked, random_log, Progress};
use engine::Driver;
use generator::Random;

const USAGE: &str = "in_turn LOGS [SEED]: two whole numbers; without a seed it is the time";

/// What was compared so far.
#[derive(Default)]
struct Tally {
    logs: u64,
    /// Not replayed to their end, or without a transaction that reached its own.
    skipped: u64,
    counts: Counts,
}

impl Tally {
    fn add(&mut self, compared: Option<Counts>) {
        match compared {
            Some(counts) => {
                self.logs += 1;
                self.counts += counts;
            }
            None => self.skipped += 1,
        }
    }
}

fn run_in_turn(driver: &mut Driver, logs: u64, seed: u64, tally: &mut Tally) -> Result<(), Box<Found>> {
    let mut random = Random::of_seed(seed);
    let mut progress = Progress::start();
    while tally.logs < logs {
        let log = random_log(&mut random);
        tally.add(check(driver, &log, &mut random)?);
        progress.say(format_args!("in turn: {} of {logs} logs", tally.logs));
    }
    Ok(())
}

fn main() -> ExitCode {
    let Some((logs, seed)) = asked() else {
        eprintln!("{USAGE}");
        return ExitCode::from(2);
    };
    println!("in turn: {logs} logs, seed {seed}");
    let start = Instant::now();
    let mut tally = Tally::default();
    let ended = run_in_turn(&mut Driver::start(), logs, seed, &mut tally);
    let seconds = start.elapsed().as_secs();
    if let Err(found) = ended {
        println!("seed {seed}, log {}:\n{found}", tally.logs + tally.skipped + 1);
        return ExitCode::FAILURE;
    }
    let Counts { transactions, out_of_order, reads, rows, own_reads, keys, refused_keys } = tally.counts;
    println!("no difference in {} logs, {} more skipped, {seconds} seconds", tally.logs, tally.skipped);
    println!("transactions in turn: {transactions}, of these ended out of the order of their numbers: {out_of_order}");
    println!("reads: {reads}, of {rows} rows; with own pending writes in them: {own_reads}");
    println!("keys read back: {keys}; refused: {refused_keys}");
    ExitCode::SUCCESS
}
