//! Over lent tables the engine gives what it gives without them, or 16. The driver fills the tables with any words, and checks that what a
//! call may not change of them stays.

use compare::lent::{compare_lent, exact, some_lengths, tables, twin_lent};
use compare::{log_of, report_length};
use engine::LentDriver;
use generator::{edges, log, longest_chain, room, Family, Random};
use twin::limits::{BUCKETS, ROWS, VERSIONS};
use twin::{Step, Words};

const LOGS: u64 = 10_000;
const STEPS: u64 = 60;
const SHORT: &str = "open 16\n";
const MOST_STACK: u64 = 64 * 1024;

fn assert_agree(driver: &mut LentDriver, log: &[u8], room: usize, lengths: Words) {
    if let Err(difference) = compare_lent(driver, log, room, lengths) {
        panic!("tables of {lengths:?} words: {difference}");
    }
}

fn open(rows: u32, versions: u32, buckets: u32) -> Vec<u8> {
    log_of(&[Step::Open { rows, versions, buckets, clock: 1 }])
}

/// The lengths with one word less in one table, for each of the four.
fn one_word_short(lengths: Words) -> [Words; 4] {
    [0, 1, 2, 3].map(|table| {
        let mut short = lengths;
        short[table] -= 1;
        short
    })
}

#[test]
fn every_vector_agrees() {
    let mut driver = LentDriver::start();
    for vector in vectors::all() {
        let lengths = exact(&vector.log);
        let replayed = driver.replay(&vector.log, vector.room, &tables(&vector.log, lengths, 1));
        assert_eq!(replayed.answer >> 32, vector.status, "{}", vector.name);
        assert_eq!(String::from_utf8_lossy(&replayed.report), String::from_utf8_lossy(&vector.report), "{}", vector.name);
    }
}

#[test]
fn random_logs_agree() {
    let mut driver = LentDriver::start();
    let mut random = Random::of_seed(1);
    for round in 0..LOGS {
        let family = Family::ALL[round as usize % Family::ALL.len()];
        let steps = random.from_to(1, STEPS);
        let log = log(family, steps, &mut random);
        let room = room(report_length(&log), &mut random);
        assert_agree(&mut driver, &log, room, exact(&log));
        assert_agree(&mut driver, &log, room, some_lengths(&log, &mut random));
    }
}

#[test]
fn each_limit_and_one_beyond_agree() {
    let mut driver = LentDriver::start();
    for edge in edges() {
        assert_agree(&mut driver, &edge.log, report_length(&edge.log), exact(&edge.log));
    }
}

#[test]
fn a_table_that_is_one_word_short_is_refused_and_nothing_is_changed() {
    let mut driver = LentDriver::start();
    let mut random = Random::of_seed(2);
    let mut logs = vec![open(1, 1, 1), open(ROWS, VERSIONS, BUCKETS)];
    logs.extend((0..200).map(|_| log(Family::Mixed, STEPS, &mut random)));
    for log in logs {
        for lengths in one_word_short(exact(&log)) {
            let room = report_length(&log) + SHORT.len();
            let tables = tables(&log, lengths, random.word());
            assert_eq!(tables.changeable, [0; 4]);
            let replayed = driver.replay(&log, room, &tables);
            assert_eq!((replayed.answer >> 32, replayed.report), (16, SHORT.as_bytes().to_vec()), "{lengths:?}");
        }
    }
}

#[test]
fn wrong_sizes_come_first_and_a_line_needs_its_room() {
    let mut driver = LentDriver::start();
    for [rows, versions, buckets] in [[0, 1, 1], [ROWS + 1, 1, 1], [1, VERSIONS + 1, 1], [1, 1, BUCKETS + 1]] {
        let log = open(rows, versions, buckets);
        let replayed = driver.replay(&log, 16, &tables(&log, [0; 4], 1));
        assert_eq!((replayed.answer >> 32, replayed.report), (1, b"open 1\n".to_vec()));
    }
    let log = open(4, 8, 4);
    for lengths in one_word_short(exact(&log)) {
        for room in 0..=SHORT.len() {
            assert_agree(&mut driver, &log, room, lengths);
        }
    }
}

#[test]
fn a_log_that_opens_no_store_needs_no_tables() {
    let mut driver = LentDriver::start();
    for log in [&[][..], &[0], &log_of(&[Step::Begin])] {
        assert_agree(&mut driver, log, 16, [0; 4]);
    }
}

#[test]
fn eight_threads_at_once_agree() {
    let mut driver = LentDriver::start();
    let mut random = Random::of_seed(3);
    for _ in 0..50 {
        let logs: Vec<Vec<u8>> = (0..8).map(|_| log(Family::Contended, 200, &mut random)).collect();
        let calls: Vec<_> =
            logs.iter().map(|log| (log.as_slice(), report_length(log), tables(log, exact(log), random.word()))).collect();
        for (&(log, room, tables), replayed) in calls.iter().zip(driver.replay_together(&calls)) {
            assert_eq!((replayed.answer, replayed.report), twin_lent(log, room, &tables.lengths));
        }
    }
}

#[test]
fn the_stack_is_small() {
    let mut driver = LentDriver::start();
    let chain = longest_chain(20);
    for log in [&[][..], &open(ROWS, VERSIONS, BUCKETS), &chain] {
        let room = report_length(log);
        assert_agree(&mut driver, log, room, exact(log));
        let touched = driver.stack_touched(log, room, &tables(log, exact(log), 1));
        println!("stack touched: {touched} bytes");
        assert!((1..=MOST_STACK).contains(&touched));
    }
}
