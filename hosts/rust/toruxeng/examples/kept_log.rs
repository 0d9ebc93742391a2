//! What a tap costs: with every tap kept in the log, and with [`Store::look`], which keeps none.
//!
//! `cargo run --release -p toruxeng --example kept_log`; the times are medians.

use std::time::{Duration, Instant};

use toruxeng::{replay, Error, Log, Step, Stopped, Store};

const KEY: u64 = 1001;
const ROUNDS: usize = 11;
const LOOKS: usize = 1_000;
/// The load is transaction 1 and its publish moves the clock too.
const FIRST_TAP: u64 = 3;

fn loaded_log() -> Log {
    let mut log = Log::open(64, 1024, 257, 1);
    log.begin().put(1, 0, KEY, 0).prepare(1).install(1).end(1).publish(1);
    log
}

fn tap(number: u64) -> [Step; 6] {
    [
        Step::begin(),
        Step::capture(number, KEY),
        Step::collect(number),
        Step::rows(number, 64),
        Step::validate(number),
        Step::abort(number),
    ]
}

/// The log after so many taps.
fn log_with(taps: u64) -> Log {
    let mut log = loaded_log();
    for number in FIRST_TAP..FIRST_TAP + taps {
        tap(number).into_iter().for_each(|step| _ = log.step(step));
    }
    log
}

fn median(mut one: impl FnMut() -> Result<Duration, Error>) -> Result<Duration, Error> {
    let mut times = (0..ROUNDS).map(|_| one()).collect::<Result<Vec<_>, _>>()?;
    times.sort();
    Ok(times[ROUNDS / 2])
}

/// One tap more, as an app does it that appends a step, replays, reads the answer, and so on.
fn step_by_step(log: &Log, number: u64, report: &mut [u8]) -> Result<Duration, Stopped> {
    let mut log = log.clone();
    let start = Instant::now();
    for step in tap(number) {
        replay(log.step(step).bytes(), report)?;
    }
    Ok(start.elapsed())
}

/// A store with so many updates of one row behind it.
fn store_with(updates: u64) -> Result<Store, Error> {
    let store = Store::open(64, 1024, 257, 1)?;
    for payload in 0..updates {
        let update = store.begin()?;
        update.put(0, KEY, payload)?;
        update.publish()?;
    }
    Ok(store)
}

fn look(store: &Store) -> Result<Duration, Error> {
    let start = Instant::now();
    store.look(KEY)?;
    Ok(start.elapsed())
}

fn main() -> Result<(), Error> {
    println!("a tap whose six steps are appended, replayed and kept:");
    for taps in [0, 1_000, 5_000, 20_000] {
        let log = log_with(taps);
        let mut report = vec![0; log.report_room() + 1024];
        let time = median(|| Ok(step_by_step(&log, FIRST_TAP + taps, &mut report)?))?;
        println!("{time:>10.1?} after {taps} taps, which take {} bytes", log.bytes().len());
    }
    println!("a tap by Store::look:");
    for updates in [1, 10, 100, 1_000] {
        let store = store_with(updates)?;
        for _ in 0..LOOKS {
            store.look(KEY)?;
        }
        let time = median(|| look(&store))?;
        println!("{time:>10.1?} after {updates} updates and {LOOKS} taps, which take {} bytes", store.bytes().len());
    }
    Ok(())
}
