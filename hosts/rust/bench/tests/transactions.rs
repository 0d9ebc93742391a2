//! Transactions are read from a log and its report: what was accepted, in the order of ends and aborts.

use bench::transactions::{Finish, Operation, Transaction, Transactions};
use toruxeng::Log;

fn of(log: &Log) -> Transactions {
    let (status, report) = twin::whole_report(log.bytes());
    assert_eq!(status, 0);
    Transactions::of(log.bytes(), &report)
}

fn ended(operations: &[Operation]) -> Transaction {
    Transaction { operations: operations.to_vec(), finish: Finish::Ended }
}

fn aborted(operations: &[Operation]) -> Transaction {
    Transaction { operations: operations.to_vec(), finish: Finish::Aborted }
}

fn read(key: u64, rows: &[u32]) -> Operation {
    Operation::Read { key, rows: rows.to_vec() }
}

#[test]
fn the_example_of_document_01_has_two_that_end_and_one_that_does_not_finish() {
    let mut log = Log::open(4, 8, 4, 1);
    log.begin().put(1, 2, 6, 10).prepare(1).install(1).end(1).publish(1);
    log.begin().capture(3, 6).collect(3).rows(3, 4);
    log.begin().put(4, 0, 2, 7).prepare(4).validate(3).install(4).end(4).publish(4).validate(3).prepare(3);
    let finished =
        [ended(&[Operation::Put { row: 2, key: 6, payload: 10 }]), ended(&[Operation::Put { row: 0, key: 2, payload: 7 }])];
    assert_eq!(of(&log), Transactions { finished: finished.to_vec(), unfinished: 1 });
}

#[test]
fn what_was_refused_is_left_out() {
    let mut log = Log::open(4, 8, 4, 1);
    // there is no row 4, no second transaction, no room for the row, and nothing to collect before the capture
    log.begin().put(1, 4, 6, 10).put(2, 0, 6, 10).collect(1).put(1, 3, 5, 11);
    log.capture(1, 5).collect(1).rows(1, 0).rows(1, 1).erase(1, 3).erase(1, 4);
    log.capture(1, 5).collect(1).rows(1, 1).capture(1, 6).abort(1).abort(1);
    let operations = [Operation::Put { row: 3, key: 5, payload: 11 }, read(5, &[3]), Operation::Erase { row: 3 }, read(5, &[])];
    assert_eq!(of(&log), Transactions { finished: vec![aborted(&operations)], unfinished: 0 });
}

#[test]
fn they_stand_in_the_order_of_their_ends_and_aborts() {
    let mut log = Log::open(4, 8, 4, 1);
    log.begin().begin().begin().begin();
    for number in 1..=4 {
        log.put(number, number as u32 - 1, number, 0);
    }
    log.prepare(1).install(1).prepare(3).install(3).end(3).abort(2).end(1).publish(1).publish(3);
    let put = |number: u64| Operation::Put { row: number as u32 - 1, key: number, payload: 0 };
    let finished = vec![ended(&[put(3)]), aborted(&[put(2)]), ended(&[put(1)])];
    assert_eq!(of(&log), Transactions { finished, unfinished: 1 });
}

#[test]
#[should_panic(expected = "a line for each record")]
fn the_report_of_a_shorter_log_is_none() {
    let mut log = Log::open(4, 8, 4, 1);
    let (_, report) = twin::whole_report(log.bytes());
    Transactions::of(log.begin().bytes(), &report);
}
