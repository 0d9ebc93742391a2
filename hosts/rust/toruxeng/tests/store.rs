//! The store that keeps its log: what it answers, what it keeps, and that nothing stays live.

use std::thread;

use toruxeng::limits::{PENDING_WRITES, READ_RECORDS, ROWS, VERSIONS};
use toruxeng::{replay, Error, Kind, Refusal, Status, Stopped, Store, Transaction, Verdict};

const TAKEN: Error = Error::Refused(Refusal::Taken);
const STALE: Error = Error::Refused(Refusal::Stale);
const CONFLICT: Error = Error::Refused(Refusal::Conflict);
const TOO_MANY: Error = Error::Refused(Refusal::TooManyLive);

/// Rows 0 and 1 hold the keys 10 and 11; no two keys below 64 share a bucket.
fn loaded() -> Store {
    let store = Store::open(ROWS, VERSIONS, 64, 1).expect("sizes in range");
    let load = store.begin().expect("the first");
    load.put(0, 10, 0).expect("row 0");
    load.put(1, 11, 0).expect("row 1");
    load.publish().expect("nobody else");
    store
}

/// An update that erases row 1 and is not prepared yet.
fn revocation(store: &Store) -> Transaction<'_> {
    let update = store.begin().expect("a place is free");
    update.erase(1).expect("row 1");
    update
}

/// A write of each of the first rows, as many to a transaction as it can have, all published.
fn write_in_turn(store: &Store, rows: u32, write: impl Fn(&Transaction, u32) -> Result<(), Error>) {
    for first in (0..rows).step_by(PENDING_WRITES) {
        let update = store.begin().expect("a place is free");
        (first..rows.min(first + PENDING_WRITES as u32)).for_each(|row| write(&update, row).expect("16 writes"));
        update.publish().expect("nobody else writes, and versions are left");
    }
}

/// How many more transactions can begin, all at once.
fn free_places(store: &Store) -> usize {
    let begun: Vec<_> = std::iter::from_fn(|| store.begin().ok()).take(9).collect();
    begun.len()
}

/// The kinds and numbers of the lines that the kept log gives.
fn kept_lines(store: &Store) -> Vec<(Kind, u32)> {
    let log = store.bytes();
    let mut report = vec![0; 1 << 20];
    let report = replay(&log, &mut report).expect("the kept log is well formed");
    report.lines().map(|line| (line.kind, line.number())).collect()
}

#[test]
fn a_tap_that_a_revocation_overtakes() {
    let store = loaded();
    let tap = store.begin().expect("a place is free");
    let read = tap.read(11).expect("nobody holds the bucket");
    assert_eq!((read.rows(), read.validate()), (&[1][..], Ok(Verdict::Clear)));

    let update = revocation(&store).prepare().expect("the tap holds nothing");
    assert_eq!(read.validate(), Err(TAKEN));
    assert_eq!(store.look(11), Err(TAKEN));
    assert_eq!(store.look(10), Ok(vec![0]));
    update.publish().expect("it is prepared");

    assert!(matches!(read.validate(), Ok(Verdict::StampChanged { bucket: 11, .. })));
    assert_eq!(tap.publish(), Err(CONFLICT));
    assert_eq!(store.look(11), Ok(vec![]));
    assert_eq!(free_places(&store), 8);
}

#[test]
fn taps_while_an_update_is_prepared_leave_nothing_live() {
    let store = loaded();
    let update = revocation(&store).prepare().expect("nobody else");
    let kept = store.bytes();
    for _ in 0..20 {
        let tap = store.begin().expect("a place is free");
        assert_eq!(tap.read(11).map(|read| read.rows().to_vec()), Err(TAKEN));
    }
    assert_eq!(store.bytes(), kept);
    assert_eq!(free_places(&store), 7);
    update.publish().expect("it is prepared");
    assert_eq!(free_places(&store), 8);
}

#[test]
fn eight_are_live_at_once_and_a_ninth_is_refused() {
    let store = loaded();
    let live: Vec<_> = (0..8).map(|_| store.begin().expect("a place is free")).collect();
    assert_eq!(store.begin().err(), Some(TOO_MANY));
    assert_eq!(store.look(10), Err(TOO_MANY));
    drop(live);
    assert_eq!(store.look(10), Ok(vec![0]));
}

#[test]
fn taps_alone_leave_nothing_in_the_log() {
    let store = loaded();
    let kept = store.bytes();
    for _ in 0..3 {
        assert_eq!(store.look(10), Ok(vec![0]));
        // the first to begin is the first to end, so none of them is alone in the log
        let first = store.begin().expect("a place is free");
        let second = store.begin().expect("a place is free");
        assert_eq!(first.read(10).expect("nobody holds it").rows(), [0]);
        assert_eq!(second.read(11).expect("nobody holds it").rows(), [1]);
        first.abort();
        assert_ne!(store.bytes(), kept);
        let third = store.begin().expect("a place is free");
        second.abort();
        third.abort();
        assert_eq!(store.bytes(), kept);
    }
}

#[test]
fn an_abort_before_a_publish_stays_and_what_follows_it_goes() {
    let store = loaded();
    let tap = store.begin().expect("a place is free");
    revocation(&store).publish().expect("nobody else");
    let published = store.bytes();
    tap.abort();
    assert_eq!(kept_lines(&store).last(), Some(&(Kind::Abort, 0)));
    assert_eq!(store.bytes()[..published.len()], published);
    let kept = store.bytes();
    store.begin().expect("a place is free").abort();
    assert_eq!(store.bytes(), kept);
}

#[test]
fn what_is_refused_is_not_kept_but_for_a_stale_read() {
    let store = loaded();
    let tap = store.begin().expect("a place is free");
    let read = tap.read(10).expect("nobody holds it");
    revocation(&store).publish().expect("the tap holds nothing");
    let kept = store.bytes();
    assert_eq!(tap.put(ROWS, 1, 1), Err(Error::Refused(Refusal::RowOutOfRange)));
    assert_eq!(read.validate(), Ok(Verdict::Clear));
    assert_eq!(store.bytes(), kept);

    assert_eq!(tap.read(11).err(), Some(STALE));
    assert_eq!(read.validate(), Ok(Verdict::Marked));
    assert_eq!(kept_lines(&store).last(), Some(&(Kind::Capture, 8)));
    let marked = store.bytes();
    assert_eq!(tap.read(10).err(), Some(STALE));
    assert_eq!(tap.read(11).err(), Some(STALE));
    assert_eq!(store.bytes(), marked, "a second mark changes nothing");
    let refused = tap.prepare().expect_err("it is marked");
    assert_eq!(refused.error, CONFLICT);
    assert_eq!(Error::from(refused), CONFLICT);
    assert_eq!(free_places(&store), 8);
}

#[test]
fn a_marked_transaction_takes_no_more_work_and_is_aborted() {
    let store = loaded();
    let tap = store.begin().expect("a place is free");
    tap.put(2, 12, 0).expect("it is not marked yet");
    revocation(&store).publish().expect("the tap holds nothing");
    assert_eq!(tap.read(11).err(), Some(STALE));
    let marked = store.bytes();
    assert_eq!(tap.put(2, 12, 1), Err(STALE));
    assert_eq!(tap.erase(2), Err(STALE));
    assert_eq!(tap.put(ROWS, 12, 1), Err(STALE), "8 comes before 6");
    assert_eq!(store.bytes(), marked, "nothing of them is kept");

    let other = store.begin().expect("a place is free");
    other.put(2, 13, 0).expect("the mark is the tap's");
    other.publish().expect("the tap claims nothing");
    tap.abort();
    assert_eq!(kept_lines(&store).last(), Some(&(Kind::Abort, 0)));
    assert_eq!((store.look(12), store.look(13)), (Ok(vec![]), Ok(vec![2])));
    assert_eq!(free_places(&store), 8);
}

#[test]
fn erases_of_empty_rows_leave_every_version_to_others() {
    let store = Store::open(ROWS, 1, 64, 1).expect("sizes in range");
    write_in_turn(&store, ROWS, |update, row| update.erase(row));
    let write = |row: u32| {
        let update = store.begin()?;
        update.put(row, 10, 0)?;
        update.publish()
    };
    assert!(write(0).is_ok(), "the only version");
    assert_eq!(write(1), Err(Error::Refused(Refusal::VersionsUsedUp)));
    let live = store.begin().expect("a place is free");
    live.erase(0).expect("row 0");
    assert_eq!(live.publish(), Err(Error::Refused(Refusal::VersionsUsedUp)), "an erase of a live row needs one");
    assert_eq!(store.look(10), Ok(vec![0]));
}

#[test]
fn a_read_that_is_refused_half_way_leaves_its_transaction_usable() {
    let store = loaded();
    write_in_turn(&store, READ_RECORDS as u32 + 1, |update, row| update.put(row, 20, 0));
    let tap = store.begin().expect("a place is free");
    let kept = store.bytes();
    assert_eq!(tap.read(20).err(), Some(Error::Refused(Refusal::ReadRecordsFull)));
    assert_eq!(store.bytes(), kept);
    let read = tap.read(10).expect("the transaction is still Open");
    assert_eq!((read.rows(), read.validate()), (&[][..], Ok(Verdict::Clear)));
    let other = store.begin().expect("a place is free");
    assert!(other.read(21).is_ok(), "the refused read holds no bucket");
}

#[test]
fn a_refused_prepare_gives_its_transaction_back() {
    let store = loaded();
    let first = revocation(&store).prepare().expect("nobody else");
    let refused = revocation(&store).prepare().expect_err("the row is claimed");
    assert_eq!(refused.error, TAKEN);
    first.publish().expect("it is prepared");
    refused.transaction.prepare().expect("the row is free").publish().expect("it is prepared");

    let prepared = revocation(&store).prepare().expect("nobody else");
    drop(prepared);
    revocation(&store).publish().expect("an update that was dropped claims nothing");
    assert_eq!(free_places(&store), 8);
}

#[test]
fn sizes_out_of_range_are_a_status() {
    let refused = Store::open(0, 1, 1, 1).expect_err("no rows");
    assert!(matches!(refused, Error::Stopped(Stopped { status: Status::OpenRefused, .. })));
    assert_eq!(refused.to_string(), "replay stopped with status 1: the open was refused");
    assert_eq!(Store::open(1, 1, 1, u64::MAX).expect("the last clock").look(0), Err(Error::Refused(Refusal::ClockUsedUp)));
}

#[test]
fn threads_share_a_store() {
    let store = loaded();
    thread::scope(|scope| {
        for _ in 0..3 {
            scope.spawn(|| {
                for _ in 0..200 {
                    let tap = store.begin().expect("four are live at most");
                    let Ok(read) = tap.read(11) else { continue };
                    assert!(matches!(read.rows(), [] | [1]));
                }
            });
        }
        scope.spawn(|| {
            for payload in 0..50 {
                let update = store.begin().expect("four are live at most");
                update.put(1, 11, payload).expect("row 1");
                update.publish().expect("taps hold nothing");
            }
        });
    });
    assert_eq!(free_places(&store), 8);
    assert_eq!(store.look(11), Ok(vec![1]));
}
