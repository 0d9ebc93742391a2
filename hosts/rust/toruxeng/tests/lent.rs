//! The call over tables of the caller's own: what it answers, what it leaves of them, and what can be told of their pointers.

mod document;

use std::ptr::null_mut;

use document::worked_example;
use toruxeng::{
    replay, replay_lent, replay_lent_raw, words, Lent, Log, RawError, RawTable, Sizes, Status, Stopped, Tables, Words,
};

const MARK: u8 = 0xA5;
/// Those of the worked example.
const SIZES: Sizes = Sizes { rows: 4, versions: 8, buckets: 4 };

/// Tables of these lengths in which any words stand.
fn any_words(lengths: [usize; 4]) -> [Vec<u64>; 4] {
    lengths.map(|length| (0..length as u64).map(|place| place.wrapping_mul(0x9E37_79B9_7F4A_7C15) >> (place % 64)).collect())
}

fn lent(tables: &mut [Vec<u64>; 4]) -> Lent<'_> {
    let [rows, versions, buckets, lists] = tables;
    Lent { rows, versions, buckets, lists }
}

fn lengths(sizes: Sizes) -> [usize; 4] {
    let Words { rows, versions, buckets, lists } = words(sizes);
    [rows, versions, buckets, lists]
}

fn raw(tables: &mut [Vec<u64>; 4]) -> [RawTable; 4] {
    tables.each_mut().map(|table| RawTable { start: table.as_mut_ptr(), length: table.len() })
}

#[test]
fn words_are_those_of_the_sizes() {
    assert_eq!(lengths(SIZES), [24, 54, 8, 12_032]);
    assert_eq!(lengths(Sizes::LARGEST), [6_144, 24_582, 8_192, 12_032]);
    let beyond = Sizes { rows: u32::MAX, versions: u32::MAX, buckets: u32::MAX };
    assert_eq!(words(beyond), words(Sizes::LARGEST), "such an open is refused whatever is lent");
}

#[test]
fn the_report_is_the_same_whatever_stands_in_the_tables() {
    let log = worked_example();
    let [mut report, mut expected] = [(); 2].map(|()| vec![0; log.report_room()]);
    let expected = replay(log.bytes(), &mut expected).expect("status 0");
    let mut held = Tables::for_sizes(SIZES);
    for _ in 0..2 {
        assert_eq!(replay_lent(log.bytes(), &mut report, held.lend()), Ok(expected));
    }
    let mut tables = any_words(lengths(SIZES));
    assert_eq!(replay_lent(log.bytes(), &mut report, lent(&mut tables)), Ok(expected));
}

#[test]
fn words_past_the_sizes_are_kept() {
    const MORE: usize = 9;
    let needed = lengths(SIZES);
    let before = any_words(needed.map(|length| length + MORE));
    let mut tables = before.clone();
    let log = worked_example();
    let mut report = vec![0; log.report_room()];
    assert!(replay_lent(log.bytes(), &mut report, lent(&mut tables)).is_ok());
    for ((table, before), needed) in tables.iter().zip(&before).zip(needed) {
        assert_eq!(table[needed..], before[needed..]);
    }
}

#[test]
fn a_table_that_is_one_word_short_changes_nothing() {
    let log = worked_example();
    let line = b"open 16\n";
    for short in 0..4 {
        let mut needed = lengths(SIZES);
        needed[short] -= 1;
        let before = any_words(needed);
        let mut tables = before.clone();
        let mut report = vec![MARK; log.report_room()];
        let stopped = replay_lent(log.bytes(), &mut report, lent(&mut tables)).expect_err("a table is short");
        assert_eq!(stopped, Stopped { status: Status::TableShort, written: line.len() });
        assert_eq!(stopped.report(&report).bytes(), line);
        assert!(report[line.len()..].iter().all(|&byte| byte == MARK));
        assert_eq!(tables, before);
    }
}

#[test]
fn wrong_sizes_come_before_short_tables() {
    let none = || Lent { rows: &mut [], versions: &mut [], buckets: &mut [], lists: &mut [] };
    let mut report = [0; 16];
    let refused = replay_lent(Log::open(0, 1, 1, 1).bytes(), &mut report, none()).expect_err("no rows");
    assert_eq!(refused.status, Status::OpenRefused);
    assert_eq!(replay_lent(&[], &mut report, none()).expect("nothing to do").bytes(), b"");
}

#[test]
fn what_is_no_table_is_told_before_the_call() {
    let log = worked_example();
    let mut report = [MARK; 64];
    let before = any_words(lengths(SIZES));
    let mut tables = before.clone();
    let right = raw(&mut tables);
    for place in 0..4 {
        let RawTable { start, length } = right[place];
        let wrong = [
            RawTable { start: null_mut(), length },
            RawTable { start: start.wrapping_byte_add(1), length: length - 1 },
            RawTable { start, length: usize::MAX },
            RawTable { start, length: isize::MAX as usize / 8 + 1 },
        ];
        for table in wrong {
            let mut tables = right;
            tables[place] = table;
            // SAFETY: each of these is refused before it is touched
            let answer = unsafe { replay_lent_raw(log.bytes().as_ptr(), log.bytes().len(), report.as_mut_ptr(), 64, tables) };
            assert_eq!(answer, Err(RawError::NoBuffer), "{table:?}");
        }
    }
    assert_eq!((report, tables), ([MARK; 64], before));
}

#[test]
fn no_two_buffers_may_overlap() {
    let log = worked_example();
    let bytes = log.bytes();
    let mut report = [MARK; 64];
    let before = any_words(lengths(SIZES));
    let mut tables = before.clone();
    let right = raw(&mut tables);
    let called = |report: *mut u8, room: usize, tables: [RawTable; 4]| {
        // SAFETY: each of these is refused before it is touched
        unsafe { replay_lent_raw(bytes.as_ptr(), bytes.len(), report, room, tables) }
    };
    for place in 0..4 {
        // the report in a table, and one table in another
        assert_eq!(called(right[place].start.cast(), 8, right), Err(RawError::BuffersOverlap));
        let mut twice = right;
        twice[place] = RawTable { start: right[(place + 1) % 4].start, length: 1 };
        assert_eq!(called(report.as_mut_ptr(), 64, twice), Err(RawError::BuffersOverlap));
    }
    assert_eq!(called(bytes.as_ptr().cast_mut(), 8, right), Err(RawError::BuffersOverlap));
    assert_eq!((report, tables), ([MARK; 64], before));
}

#[test]
fn right_pointers_are_called() {
    let log = worked_example();
    let mut report = vec![0; log.report_room()];
    let mut tables = any_words(lengths(SIZES));
    // SAFETY: all are live and apart
    let written =
        unsafe { replay_lent_raw(log.bytes().as_ptr(), log.bytes().len(), report.as_mut_ptr(), report.len(), raw(&mut tables)) };
    let mut expected = vec![0; log.report_room()];
    let expected = replay(log.bytes(), &mut expected).expect("status 0").bytes();
    assert_eq!(written.map(|written| &report[..written]), Ok(expected));
}
