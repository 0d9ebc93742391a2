//! `bench`: the proved engine and the plain twin over the same logs, in turns, in one process; SQLite beside them on the transactions of
//! one log.
//!
//! `bench once ENGINE ROUNDS` only replays the benchmark log so often, for a tool that counts instructions; `bench cuts LENGTH..` the log
//! on standard input, by the proved engine, once for each length and cut to it.

mod printed;

use std::io::{self, Read};
use std::process::ExitCode;

use bench::case::Case;
use bench::engine::Engine;
use bench::{heap, machine};
use generator::{benchmark, Random};
use printed::{counts, times, SEED};

const STEPS: u64 = 100_000;

/// The log of the benchmark.
fn benchmark_case() -> Case {
    Case::of_log(benchmark(STEPS, &mut Random::of_seed(SEED)))
}

/// Measures and prints everything.
fn bench() {
    println!("machine: {}", machine::name());
    let mut case = benchmark_case();
    let (log, report) = (case.log.len(), case.report.len());
    println!("log: seed {SEED}, {} steps, {log} bytes; report {report} bytes", case.steps);

    println!("instructions are counted now, which takes some minutes");
    if let Err(why) = counts::print(&case) {
        println!("instructions of a step: not counted, {why}");
    }
    for engine in Engine::BOTH {
        let most = heap::most_used_by(|| {
            engine.replay(&case.log, &mut case.report);
        });
        println!("heap in use at most: {} {most} bytes", engine.name());
    }
    times::print(&mut case);
}

/// Replays the benchmark log and says nothing. The report is not cleared between, since valgrind would count that too.
fn once(engine: Engine, rounds: u64) {
    let mut case = benchmark_case();
    for _ in 0..rounds {
        engine.replay(&case.log, &mut case.report);
    }
}

/// Replays what is left of a log when it is cut to each of these lengths, and says nothing; nothing where one is longer.
fn cuts(log: Vec<u8>, lengths: &[usize]) -> Option<()> {
    let Case { log, mut report, .. } = Case::of_log(log);
    for &length in lengths {
        Engine::Proved.replay(log.get(..length)?, &mut report);
    }
    Some(())
}

/// All of standard input, where it can be read.
fn standard_input() -> Option<Vec<u8>> {
    let mut bytes = Vec::new();
    io::stdin().read_to_end(&mut bytes).ok().map(|_| bytes)
}

/// The words as numbers, where all are.
fn numbers(words: &[&str]) -> Option<Vec<usize>> {
    words.iter().map(|word| word.parse().ok()).collect()
}

/// Does what the words ask for, where they ask for something.
fn run(words: &[&str]) -> Option<()> {
    match *words {
        [] => bench(),
        ["once", engine, rounds] => once(Engine::of_name(engine)?, rounds.parse().ok()?),
        ["cuts", ref lengths @ ..] => {
            let lengths = numbers(lengths)?;
            cuts(standard_input()?, &lengths)?;
        }
        _ => return None,
    }
    Some(())
}

fn main() -> ExitCode {
    let arguments: Vec<String> = std::env::args().skip(1).collect();
    let words: Vec<&str> = arguments.iter().map(String::as_str).collect();
    match run(&words) {
        Some(()) => ExitCode::SUCCESS,
        None => {
            eprintln!("bench, or bench once ENGINE ROUNDS; ENGINE is proved or twin");
            eprintln!("bench cuts LENGTH.., with a log on standard input");
            ExitCode::from(2)
        }
    }
}
