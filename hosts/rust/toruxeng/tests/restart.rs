//! A store from kept bytes that a kill may have cut.

mod document;

use document::worked_example;
use toruxeng::{replay, Error, Log, Status, Step, Steps, Stopped, Store};

const MALFORMED: Error = Error::Stopped(Stopped { status: Status::LogMalformed, written: 0 });
const OPEN_BYTES: usize = 24;

/// The steps that restart put behind the whole records of these bytes.
fn appended(bytes: &[u8]) -> Vec<Step> {
    let whole = Steps::of(bytes).filter(Result::is_ok).count();
    let store = Store::restart(bytes).expect("a log with its open");
    let kept = store.bytes();
    let steps = Steps::of(&kept).collect::<Result<Vec<_>, _>>().expect("whole records");
    steps[whole..].to_vec()
}

#[test]
fn the_worked_example_cut_after_every_byte() {
    let example = worked_example();
    for cut in 0..=example.bytes().len() {
        let bytes = &example.bytes()[..cut];
        if cut < OPEN_BYTES {
            assert_eq!(Store::restart(bytes).err(), Some(MALFORMED), "cut after byte {cut}");
            continue;
        }
        let store = Store::restart(bytes).expect("the open is whole");
        let live: Vec<_> = (0..8).map(|_| store.begin().expect("nothing is live")).collect();
        drop(live);
        let kept = store.bytes();
        assert!(kept.starts_with(&bytes[..whole_length(bytes)]), "cut after byte {cut}");
        assert_eq!(
            store.look(6).map(|rows| rows.len()),
            Ok(usize::from(accepted(bytes, Step::install(1)))),
            "cut after byte {cut}"
        );
        assert_eq!(
            store.look(2).map(|rows| rows.len()),
            Ok(usize::from(accepted(bytes, Step::install(4)))),
            "cut after byte {cut}"
        );
        assert_eq!(Store::restart(&kept).expect("it is whole").bytes(), kept);
    }
}

/// How far the whole records go.
fn whole_length(bytes: &[u8]) -> usize {
    Steps::of(bytes).filter_map(Result::ok).map(|step| step.bytes().len()).sum()
}

fn accepted(bytes: &[u8], step: Step) -> bool {
    Steps::of(bytes).any(|read| read == Ok(step))
}

#[test]
fn each_phase_has_its_ending() {
    let mut log = Log::open(8, 16, 16, 1);
    assert_eq!(appended(log.bytes()), []);
    log.begin();
    assert_eq!(appended(log.bytes()), [Step::abort(1)]);
    log.capture(1, 5);
    assert_eq!(appended(log.bytes()), [Step::abort(1)]);
    log.collect(1);
    assert_eq!(appended(log.bytes()), [Step::abort(1)]);
    log.rows(1, 8).put(1, 0, 5, 0).prepare(1);
    assert_eq!(appended(log.bytes()), [Step::abort(1)]);
    log.install(1);
    assert_eq!(appended(log.bytes()), [Step::end(1), Step::publish(1)]);
    log.end(1);
    assert_eq!(appended(log.bytes()), [Step::publish(1)]);
    log.publish(1);
    assert_eq!(appended(log.bytes()), []);
}

#[test]
fn several_are_ended_in_rising_number_and_refused_steps_count_for_nothing() {
    let mut log = Log::open(8, 16, 16, 1);
    log.begin().begin().begin();
    log.put(2, 0, 5, 0).prepare(2).install(2).put(3, 1, 6, 0).prepare(3).install(3).end(3);
    // none of these is accepted: 4 is not there, 3 is Ended, 1 is Open
    log.install(4).abort(3).publish(1).install(1).end(1);
    assert_eq!(appended(log.bytes()), [Step::abort(1), Step::end(2), Step::publish(2), Step::publish(3)]);
    let store = Store::restart(log.bytes()).expect("a log with its open");
    assert_eq!((store.look(5), store.look(6)), (Ok(vec![0]), Ok(vec![1])));
}

#[test]
fn a_restarted_store_counts_on_from_the_clock_of_its_log() {
    let store = Store::restart(Log::open(8, 16, 16, 100).begin().bytes()).expect("a log with its open");
    let update = store.begin().expect("nothing is live");
    update.put(0, 5, 0).expect("row 0");
    update.publish().expect("nobody else");
    let kept = store.bytes();
    let mut report = [0; 256];
    let report = replay(&kept, &mut report).expect("a log of whole records");
    assert!(report.lines().all(|line| line.number() == 0));
    assert_eq!(report.bytes(), b"open 0\nbegin 0 100\nabort 0\nbegin 0 101\nput 0\nprepare 0\ninstall 0\nend 0\npublish 0 102\n");
}

/// What an app does after a publish: the file gets what it does not have yet.
fn save(store: &Store, file: &mut Vec<u8>) {
    let published = store.published();
    assert!(published.starts_with(file), "what a file has stays right");
    file.extend(&published[file.len()..]);
}

#[test]
fn a_file_of_what_was_published_restarts_as_the_store_was() {
    let store = Store::open(4, 64, 4, 1).expect("sizes in range");
    let mut file = Vec::new();
    save(&store, &mut file);
    assert_eq!(Store::restart(&file).and_then(|store| store.look(1)), Ok(vec![]));
    let publish = |row: u32, key: Option<u64>| {
        let update = store.begin().expect("a place is free");
        key.map_or_else(|| update.erase(row), |key| update.put(row, key, 0)).expect("the row is there");
        update.publish().expect("nobody else writes");
    };
    publish(0, Some(1));
    publish(1, Some(2));
    // a transaction that is live while the file is written, and given up afterwards
    let given_up = store.begin().expect("a place is free");
    given_up.erase(1).expect("row 1 is there");
    save(&store, &mut file);
    drop(given_up);
    publish(0, None);
    save(&store, &mut file);
    let restarted = Store::restart(&file).expect("the file has its open");
    for key in [1, 2] {
        assert_eq!(restarted.look(key), store.look(key), "key {key}");
    }
    assert_eq!(restarted.look(2), Ok(vec![1]));
    assert!(restarted.published().starts_with(&file));
}

#[test]
fn what_no_kill_leaves_is_an_error() {
    let log = Log::open(4, 8, 4, 1).begin().bytes().to_vec();
    let with = |tail: &[u8]| Store::restart(&[&log, tail].concat()).map(|store| store.bytes().len() - log.len());
    let abort = Step::abort(1).bytes().len();
    // the fronts of records
    for tail in [&[][..], &[30], &[30, 0], &[30, 0, 6], &[30, 0, 6, 0], &[30, 0, 6, 0, 9, 9, 9]] {
        assert_eq!(with(tail), Ok(abort), "{tail:?}");
    }
    // lengths that no record has, kinds of another length, unknown kinds
    for tail in [&[31][..], &[0, 0], &[30, 1], &[30, 0, 5], &[10, 0, 14], &[2, 0, 0, 0], &[255, 255, 255]] {
        assert_eq!(with(tail), Err(MALFORMED), "{tail:?}");
    }
    let second_open = with(&Step::open(4, 8, 4, 1).bytes()).expect_err("an open stands only in front");
    assert!(matches!(second_open, Error::Stopped(Stopped { status: Status::LogMalformed, .. })));
    for first in [Step::begin(), Step::abort(1)] {
        assert!(matches!(Store::restart(&first.bytes()), Err(Error::Stopped(_))), "{}", first.kind().word());
    }
    let refused = Store::restart(Log::open(4, 8, 0, 1).bytes()).expect_err("no buckets");
    assert!(matches!(refused, Error::Stopped(Stopped { status: Status::OpenRefused, .. })));
}
