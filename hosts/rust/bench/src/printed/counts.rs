//! Instructions of a step, by the proved engine and once by the twin.

use std::slice;

use generator::{with_chains, Chains, Posted};

use super::{growth, posted_case, BUCKETS, DEPTHS, GROWTH_STEPS, ROWS};
use bench::case::Case;
use bench::engine::Engine;
use bench::instructions;
use bench::kinds::{self, OfAKind, Record};

const SEVERAL_ROWS: u32 = 16;
const ACTIVE: [u64; 3] = [0, 3, 7];
/// By kind of step they are counted in the first steps of the benchmark log, and in so many of the same work.
const KINDS_STEPS: usize = 8_000;
const POSTED_KINDS_STEPS: u64 = 720;

/// Of the benchmark log for both engines; for the proved one by kind of step, of chains, and of the same work over stores of other sizes.
pub fn print(case: &Case) -> Result<(), String> {
    let [proved, twin] = Engine::BOTH.map(instructions::of_a_replay);
    println!("instructions of a step: proved {:.0}, twin {:.0}", each(proved?, case.steps), each(twin?, case.steps));
    print_kinds(&case.log)?;
    print_chains()?;
    print_posted()?;
    print_posted_kinds()
}

/// So many by so many steps.
fn each(count: u64, steps: usize) -> f64 {
    count as f64 / steps as f64
}

/// Of a step of those that count.
fn of_a_step(case: &Case) -> Result<f64, String> {
    Ok(each(instructions::of_parts(&case.log, slice::from_ref(&case.counted()))?, case.steps))
}

/// Of the first steps of a log, by kind; what the kinds take together stands beside the whole, which is counted by itself.
fn print_kinds(log: &[u8]) -> Result<(), String> {
    let records = kinds::first_records(log, KINDS_STEPS);
    let steps = records.len();
    let log = &log[..records.last().map_or(0, |(_, bytes)| bytes.end)];

    println!("\n{:<28}{:>8}{:>14}", format!("first {steps} steps, by kind"), "steps", "instructions");
    let mut together = 0.0;
    for kind in kinds::all() {
        let counted = OfAKind::count(kind, log, &records)?;
        println!("{:<28}{:>8}{:>14}", kind.word(), counted.steps, or_none(counted.instructions));
        together += counted.together();
    }
    let whole = instructions::of_parts(log, slice::from_ref(&(0..log.len())))?;
    println!("{:<28}{steps:>8}{:>14.0}", "by the kinds together", together / steps as f64);
    println!("{:<28}{steps:>8}{:>14.0}", "by the log less an empty one", each(whole, steps));
    Ok(())
}

fn or_none(count: Option<f64>) -> String {
    count.map_or("-".to_string(), |count| format!("{count:.0}"))
}

/// By depth and by active numbers.
fn print_chains() -> Result<(), String> {
    print!("\n{:<28}", "chains read to their ends");
    ACTIVE.iter().for_each(|active| print!("{:>10}", format!("{active} active")));
    println!();
    let depths = DEPTHS.map(|versions| (1, versions));
    for (rows, versions) in depths.into_iter().chain([(SEVERAL_ROWS, 1)]) {
        print!("{:<28}", format!("rows {rows}, versions {versions}"));
        for active in ACTIVE {
            let case = Case::of_stretch(with_chains(&Chains { rows, versions, active }, GROWTH_STEPS / 3));
            print!("{:>10.1}", of_a_step(&case)?);
        }
        println!();
    }
    Ok(())
}

/// By rows and buckets.
fn print_posted() -> Result<(), String> {
    print!("\n{:<28}", "the same work, all posted");
    ROWS.iter().for_each(|rows| print!("{:>10}", format!("{rows} rows")));
    println!("{:>10}", "growth");
    for buckets in BUCKETS {
        print!("{:<28}", format!("{buckets} buckets"));
        let counts = ROWS.iter().map(|&rows| of_a_step(&posted_case(&Posted { rows, buckets }, GROWTH_STEPS)));
        let counts = counts.collect::<Result<Vec<f64>, _>>()?;
        counts.iter().for_each(|count| print!("{count:>10.0}"));
        println!("{:>10.2}", growth(&counts));
    }
    Ok(())
}

/// By kind of step, in the smallest and the largest store.
fn print_posted_kinds() -> Result<(), String> {
    let ends = [ROWS[0], ROWS[ROWS.len() - 1]];
    for buckets in BUCKETS {
        let cases = ends.map(|rows| posted_case(&Posted { rows, buckets }, POSTED_KINDS_STEPS));
        let records = cases.each_ref().map(counted_records);
        print!("\n{:<28}", format!("by kind, {buckets} buckets"));
        ends.iter().for_each(|rows| print!("{:>10}", format!("{rows} rows")));
        println!("{:>10}{:>10}", "growth", "steps");
        for kind in kinds::all() {
            let of_case = |place: usize| OfAKind::count(kind, &cases[place].log, &records[place]);
            let [least, most] = [of_case(0)?, of_case(1)?];
            if let (Some(of_least), Some(of_most)) = (least.instructions, most.instructions) {
                let growth = growth(&[of_least, of_most]);
                println!("{:<28}{of_least:>10.0}{of_most:>10.0}{growth:>10.2}{:>10}", kind.word(), most.steps);
            }
        }
    }
    println!();
    Ok(())
}

/// The records of the steps that count.
fn counted_records(case: &Case) -> Vec<Record> {
    let mut records = kinds::first_records(&case.log, usize::MAX);
    records.retain(|(_, bytes)| bytes.start >= case.counted().start);
    records
}
