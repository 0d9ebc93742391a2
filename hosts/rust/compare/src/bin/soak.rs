//! `soak STEPS [SEED]`: engine and twin side by side over so many reported steps, some of the logs once more over lent tables; ends at the
//! first difference.

use std::collections::BTreeMap;
use std::process::ExitCode;
use std::time::Instant;

use compare::lent::{compare_lent, exact, some_lengths, tables};
use compare::{asked, compare, lines, number, random_log, report_length, Difference, Progress};
use engine::{Driver, LentDriver, Replayed};
use generator::{longest_chain, room, Random};

const USAGE: &str = "soak STEPS [SEED]: two whole numbers; without a seed it is the time";

/// So many logs of a hundred are replayed over lent tables too.
const LENT_PERCENT: u64 = 25;

struct Engines {
    driver: Driver,
    lent: LentDriver,
}

/// What was replayed so far.
#[derive(Default)]
struct Tally {
    steps: u64,
    logs: u64,
    lent: u64,
    by_number: BTreeMap<u32, u64>,
    by_status: BTreeMap<u64, u64>,
}

impl Tally {
    fn add(&mut self, replayed: &Replayed) {
        for line in lines(&replayed.report) {
            *self.by_number.entry(number(line)).or_default() += 1;
            self.steps += 1;
        }
        *self.by_status.entry(replayed.answer >> 32).or_default() += 1;
        self.logs += 1;
    }
}

fn replay_side_by_side(engines: &mut Engines, steps: u64, seed: u64, tally: &mut Tally) -> Result<(), Box<Difference>> {
    let mut random = Random::of_seed(seed);
    let mut progress = Progress::start();
    while tally.steps < steps {
        let log = random_log(&mut random);
        let room = room(report_length(&log), &mut random);
        tally.add(&compare(&mut engines.driver, &log, room)?);
        if random.percent(LENT_PERCENT) {
            compare_lent(&mut engines.lent, &log, room, some_lengths(&log, &mut random))?;
            tally.lent += 1;
        }
        progress.say(format_args!("soak: {} of {steps} steps", tally.steps));
    }
    Ok(())
}

/// Of both functions, for a log that asks for nothing and for the one with the longest walk.
fn print_stack(engines: &mut Engines) {
    for (what, log) in [("an empty log", vec![]), ("the longest chain", longest_chain(1))] {
        let room = report_length(&log);
        let touched = engines.driver.stack_touched(&log, room);
        let lent = engines.lent.stack_touched(&log, room, &tables(&log, exact(&log), 1));
        println!("stack that a call touches for {what}: {touched} bytes; over lent tables: {lent} bytes");
    }
}

fn main() -> ExitCode {
    let Some((steps, seed)) = asked() else {
        eprintln!("{USAGE}");
        return ExitCode::from(2);
    };
    println!("soak: {steps} steps, seed {seed}");
    let start = Instant::now();
    let mut engines = Engines { driver: Driver::start(), lent: LentDriver::start() };
    let mut tally = Tally::default();
    let ended = replay_side_by_side(&mut engines, steps, seed, &mut tally);
    let seconds = start.elapsed().as_secs();
    if let Err(difference) = ended {
        println!("after {} steps in {} logs:\n{difference}", tally.steps, tally.logs);
        return ExitCode::FAILURE;
    }
    println!(
        "no difference in {} steps of {} logs, {} of them over lent tables too, {seconds} seconds",
        tally.steps, tally.logs, tally.lent
    );
    println!("logs by status: {:?}\nsteps by number: {:?}", tally.by_status, tally.by_number);
    print_stack(&mut engines);
    ExitCode::SUCCESS
}
