//! SQLite reads and leaves what the log's transactions did; and the comparison fails where order, rows or payloads are others.

use bench::sqlite::Sqlite;
use bench::table::{compare, left_by, Compared};
use bench::transactions::{Operation, Transaction, Transactions};
use generator::{benchmark, Random};
use toruxeng::limits::ROWS;
use toruxeng::Log;
use twin::Content;

/// None where the machine has none: then these tests say so and test nothing.
fn sqlite() -> Option<Sqlite> {
    Sqlite::of_the_system().map_err(|why| eprintln!("no sqlite: {why}")).ok()
}

fn transactions(log: &[u8]) -> Vec<Transaction> {
    let (status, report) = twin::whole_report(log);
    assert_eq!(status, 0);
    Transactions::of(log, &report).finished
}

/// Row 0 is loaded; then one begins and puts it under another key, and another begins later, reads the old key and ends first.
fn overtaken() -> Log {
    let mut log = Log::open(4, 8, 4, 1);
    log.begin().put(1, 0, 6, 10).prepare(1).install(1).end(1).publish(1);
    log.begin().put(3, 0, 7, u64::MAX).begin().capture(4, 6).collect(4).rows(4, ROWS).erase(4, 1).put(4, 2, 6, 5);
    log.capture(4, 6).collect(4).rows(4, ROWS);
    log.prepare(4).install(4).end(4).publish(4).prepare(3).install(3).end(3).publish(3);
    log
}

const LEFT: [(u32, Content); 2] = [(0, Content { key: 7, payload: u64::MAX }), (2, Content { key: 6, payload: 5 })];

#[test]
fn the_store_is_left_with_what_ended() {
    assert_eq!(left_by(overtaken().bytes()), LEFT);
}

#[test]
fn a_log_is_as_on_the_table() {
    let Some(sqlite) = sqlite() else { return };
    let compared = compare(&sqlite, &transactions(overtaken().bytes()), &LEFT);
    // the second read finds the reader's own row too
    assert_eq!(compared, Ok(Compared { transactions: 3, reads: 2, rows: 3, left: 2 }));
}

#[test]
fn the_benchmark_is_as_on_the_table() {
    let Some(sqlite) = sqlite() else { return };
    let log = benchmark(5_000, &mut Random::of_seed(2));
    let compared = compare(&sqlite, &transactions(&log), &left_by(&log)).unwrap_or_else(|why| panic!("{why}"));
    assert!(compared.transactions > 200 && compared.reads > 400 && compared.rows > compared.reads, "{compared:?}");
}

#[test]
fn another_order_is_caught() {
    let Some(sqlite) = sqlite() else { return };
    let mut by_number = transactions(overtaken().bytes());
    by_number.swap(1, 2);
    let why = compare(&sqlite, &by_number, &LEFT).expect_err("the order matters");
    assert!(why.starts_with("key 6: sqlite reads the rows [], the report has [0]"), "{why}");
}

#[test]
fn another_payload_is_caught() {
    let Some(sqlite) = sqlite() else { return };
    let mut others = transactions(overtaken().bytes());
    others[2].operations = vec![Operation::Put { row: 0, key: 7, payload: 1 }];
    let why = compare(&sqlite, &others, &LEFT).expect_err("the payload is another");
    assert!(why.starts_with("sqlite is left with"), "{why}");
}
