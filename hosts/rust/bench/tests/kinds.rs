//! Records are found by their places, and some of them are spread over all.

use bench::kinds::{first_records, spread};
use toruxeng::{Kind, Log};

#[test]
fn records_stand_one_behind_another() {
    let mut log = Log::open(4, 8, 4, 1);
    log.begin().capture(1, 6).abort(1);
    let records = [(Kind::Open, 0..24), (Kind::Begin, 24..28), (Kind::Capture, 28..48), (Kind::Abort, 48..60)];
    assert_eq!(first_records(log.bytes(), 9), records);
    assert_eq!(first_records(log.bytes(), 2), records[..2]);
    assert_eq!(first_records(&[], 9), []);
}

#[test]
fn some_are_spread_over_all() {
    let records: Vec<_> = (0..12).map(|place| place..place + 1).collect();
    assert_eq!(spread(&records, 3), [2..3, 6..7, 10..11]);
    assert_eq!(spread(&records, 12), records);
    assert_eq!(spread(&records, 99), records);
    assert_eq!(spread(&[], 3), []);
}
