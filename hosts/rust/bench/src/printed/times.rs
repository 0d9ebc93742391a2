//! Nanoseconds of a step by both engines, and by SQLite for one log.

use std::time::Duration;

use generator::{with_chains, with_live, Chains, Posted, Random};

use super::{growth, posted_case, BUCKETS, DEPTHS, GROWTH_STEPS, ROWS, SEED};
use bench::case::Case;
use bench::engine::Engine;
use bench::medians::in_turns;
use bench::sqlite::Sqlite;
use bench::table::{self, Compared};
use bench::transactions::Transactions;

const ROUNDS: usize = 31;
const GROWTH_ROUNDS: usize = 11;

/// Who is timed on the benchmark log.
#[derive(Clone, Copy)]
enum Contender {
    Engine(Engine),
    Sqlite,
}

/// Of the benchmark log, and of logs that show how the times grow.
pub fn print(case: &mut Case) {
    let transactions = Transactions::of(&case.log, &case.report);
    let sqlite = Sqlite::of_the_system();
    match &sqlite {
        Ok(sqlite) => print_sqlite(sqlite, case, &transactions),
        Err(why) => println!("sqlite: not timed, {why}"),
    }

    print!("\n{:<28}{:>8}{:>8}{:>7}", "nanoseconds of a step", "proved", "twin", "ratio");
    match &sqlite {
        Ok(sqlite) => {
            println!("{:>8}{:>7}", "sqlite", "ratio");
            print_three("the benchmark log", case, sqlite, &transactions);
        }
        Err(_) => {
            println!();
            print_two("the benchmark log", case, ROUNDS);
        }
    }
    BUCKETS.iter().for_each(|&buckets| print_posted(buckets));
    for versions in DEPTHS {
        let chains = with_chains(&Chains { rows: 1, versions, active: 0 }, GROWTH_STEPS / 3);
        print_two(&format!("chains of {versions} versions"), &mut Case::of_stretch(chains), GROWTH_ROUNDS);
    }
    for live in 1..=8 {
        let log = with_live(live, GROWTH_STEPS, &mut Random::of_seed(SEED));
        print_two(&format!("{live} live transactions"), &mut Case::of_log(log), GROWTH_ROUNDS);
    }
}

/// What SQLite is given to do, and that it does what the log did.
fn print_sqlite(sqlite: &Sqlite, case: &Case, transactions: &Transactions) {
    let Transactions { finished, unfinished } = transactions;
    println!("sqlite: {} of the system, one connection to :memory:, statements prepared once", sqlite.version());
    println!(
        "sqlite: {} transactions, decoded beforehand, each run whole where it ends or is aborted; no log to read, no report to write; \
         {unfinished} never finish and are left out",
        finished.len()
    );
    let compared = table::compare(sqlite, finished, &table::left_by(&case.log));
    let Compared { transactions, reads, rows, left } = compared.unwrap_or_else(|why| panic!("{why}"));
    println!(
        "sqlite: {transactions} ended, and their {reads} reads find the {rows} rows of the report; {left} rows are left as in the store"
    );
}

/// The same work over stores of so many buckets, and how it grows with the rows.
fn print_posted(buckets: u32) {
    let times = ROWS.map(|rows| {
        let case = &mut posted_case(&Posted { rows, buckets }, GROWTH_STEPS);
        print_two(&format!("{rows} rows, {buckets} buckets"), case, GROWTH_ROUNDS)
    });
    let [proved, twin] = [0, 1].map(|engine| growth(&times.map(|both| both[engine])));
    println!("{:<28}{proved:>8.2}{twin:>8.2}", format!("{} rows by {}", ROWS[ROWS.len() - 1], ROWS[0]));
}

/// The median times of both engines, in nanoseconds of a step.
fn print_two(what: &str, case: &mut Case, rounds: usize) -> [f64; 2] {
    let times = in_turns(Engine::BOTH, rounds, |engine| case.time(engine));
    print_line(what, case, times);
    println!();
    times.map(|time| case.nanoseconds_of_a_step(time))
}

/// The median times of both engines, and of SQLite behind them.
fn print_three(what: &str, case: &mut Case, sqlite: &Sqlite, transactions: &Transactions) {
    let [proved, twin] = Engine::BOTH.map(Contender::Engine);
    let [proved, twin, beside] = in_turns([proved, twin, Contender::Sqlite], ROUNDS, |contender| match contender {
        Contender::Engine(engine) => case.time(engine),
        Contender::Sqlite => table::time(sqlite, &transactions.finished),
    });
    print_line(what, case, [proved, twin]);
    println!("{:>8.1}{:>7.2}", case.nanoseconds_of_a_step(beside), ratio(proved, beside));
}

/// Times and ratio of both engines, without the end of the line.
fn print_line(what: &str, case: &Case, [proved, twin]: [Duration; 2]) {
    let [of_proved, of_twin] = [proved, twin].map(|time| case.nanoseconds_of_a_step(time));
    print!("{what:<28}{of_proved:>8.1}{of_twin:>8.1}{:>7.2}", ratio(proved, twin));
}

fn ratio(time: Duration, other: Duration) -> f64 {
    time.as_secs_f64() / other.as_secs_f64()
}
