//! Engine and twin give the same status, length and report. The driver checks the memory round each call.

use compare::{compare, report_length, twin_replay};
use engine::{Driver, STACK};
use generator::{benchmark, edges, log, longest_chain, room, Family, Random};
use twin::limits::VERSIONS;

const SHORT_LOGS: u64 = 25_000;
const SHORT: u64 = 60;
const LONG: u64 = 20_000;
/// The largest of the tables that stand on the stack, of six words a version.
const VERSIONS_BYTES: u64 = 6 * 8 * VERSIONS as u64;

/// TORUXENG_SEED gives other logs than the gate's.
fn seed() -> u64 {
    let seed = std::env::var("TORUXENG_SEED").map_or(1, |seed| seed.parse().expect("TORUXENG_SEED is a number"));
    println!("seed {seed}");
    seed
}

fn assert_agree(driver: &mut Driver, log: &[u8], room: usize) {
    if let Err(difference) = compare(driver, log, room) {
        panic!("{difference}");
    }
}

#[test]
fn on_short_logs() {
    let mut driver = Driver::start();
    let mut random = Random::of_seed(seed());
    for round in 0..SHORT_LOGS {
        let family = Family::ALL[round as usize % Family::ALL.len()];
        let steps = random.from_to(1, SHORT);
        let log = log(family, steps, &mut random);
        let room = room(report_length(&log), &mut random);
        assert_agree(&mut driver, &log, room);
    }
}

#[test]
fn on_long_logs() {
    let mut driver = Driver::start();
    let mut random = Random::of_seed(seed());
    for family in [Family::Mixed, Family::Contended, Family::Limits, Family::Damaged, Family::Mixed, Family::Contended] {
        let log = log(family, LONG, &mut random);
        assert_agree(&mut driver, &log, report_length(&log));
    }
    let log = benchmark(LONG, &mut random);
    assert_agree(&mut driver, &log, report_length(&log));
}

#[test]
fn at_each_limit_and_one_beyond() {
    let mut driver = Driver::start();
    for edge in edges() {
        assert_agree(&mut driver, &edge.log, report_length(&edge.log));
    }
}

#[test]
fn on_every_cut_and_every_room_of_one_log() {
    let mut driver = Driver::start();
    let log = log(Family::Mixed, 12, &mut Random::of_seed(seed()));
    let length = report_length(&log);
    for end in 0..log.len() {
        assert_agree(&mut driver, &log[..end], length);
    }
    for room in 0..length + 2 {
        assert_agree(&mut driver, &log, room);
    }
}

#[test]
fn in_two_and_in_eight_threads_at_once() {
    let mut driver = Driver::start();
    let mut random = Random::of_seed(seed());
    for round in 0..200 {
        let count = if round % 2 == 0 { 2 } else { 8 };
        let logs: Vec<Vec<u8>> = (0..count).map(|_| log(Family::Contended, 200, &mut random)).collect();
        let calls: Vec<(&[u8], usize)> = logs.iter().map(|log| (log.as_slice(), report_length(log))).collect();
        for (&(log, room), replayed) in calls.iter().zip(driver.replay_together(&calls)) {
            assert_eq!((replayed.answer, replayed.report), twin_replay(log, room));
        }
    }
}

#[test]
fn on_the_longest_chain_with_a_small_stack() {
    let mut driver = Driver::start();
    let log = longest_chain(20);
    let room = report_length(&log);
    assert_agree(&mut driver, &log, room);
    let report = String::from_utf8(twin_replay(&log, room).1).expect("a report is text");
    let lines = |start: &str| report.lines().filter(|line| line.starts_with(start)).count();
    assert_eq!((lines("publish 0 "), lines("rows 0 1 0")), (VERSIONS as usize, 20));
    let touched = driver.stack_touched(&log, room);
    println!("stack touched: {touched} bytes");
    assert!((VERSIONS_BYTES..STACK).contains(&touched));
}
