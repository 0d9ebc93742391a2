//! Logs that end at a limit of document 01 or one beyond it, each with the line that its report ends with.

use twin::limits::{BUCKETS, INDEX_READS, LIVE, PENDING_WRITES, READ_RECORDS, ROWS, VERSIONS};
use twin::Step;

use crate::writer::{put, Writer};

/// A log, and the last line of its report.
pub struct Edge {
    pub log: Vec<u8>,
    pub last_line: String,
}

const KEY: u64 = 5;
const OTHER_KEY: u64 = 6;
const RECORDS: u32 = READ_RECORDS as u32;
const WRITES: u32 = PENDING_WRITES as u32;

/// Every limit from both sides.
pub fn edges() -> Vec<Edge> {
    let edges = [sizes(), rows(), live(), index_reads(), pending_writes(), read_records(), rooms(), versions()];
    edges.into_iter().flatten().collect()
}

fn edge(writer: Writer, last_line: impl Into<String>) -> Edge {
    Edge { log: writer.bytes, last_line: last_line.into() }
}

/// A store of the largest sizes.
fn largest() -> Writer {
    Writer::open(ROWS, VERSIONS, BUCKETS, 1)
}

fn begun(writer: &mut Writer) -> u64 {
    writer.begin().expect("fewer than eight are live")
}

fn sizes() -> Vec<Edge> {
    const LARGEST: [u32; 3] = [ROWS, VERSIONS, BUCKETS];
    let beyond = |place: usize| {
        [LARGEST[place] + 1, u32::MAX].map(|size| {
            let mut sizes = LARGEST;
            sizes[place] = size;
            let [rows, versions, buckets] = sizes;
            edge(Writer::open(rows, versions, buckets, 1), "open 1")
        })
    };
    (0..3).flat_map(beyond).chain([edge(largest(), "open 0")]).collect()
}

/// The last row and one behind it.
fn rows() -> Vec<Edge> {
    let putting = |row| {
        let mut writer = largest();
        let number = begun(&mut writer);
        writer.steps(&[put(number, row, KEY)]);
        writer
    };
    vec![edge(putting(ROWS - 1), "put 0"), edge(putting(ROWS), "put 6")]
}

fn live() -> Vec<Edge> {
    let beginning = |count| {
        let mut writer = largest();
        writer.steps(&vec![Step::Begin; count]);
        writer
    };
    vec![edge(beginning(LIVE), format!("begin 0 {LIVE}")), edge(beginning(LIVE + 1), "begin 3")]
}

fn index_reads() -> Vec<Edge> {
    let capturing = |count: usize| {
        let mut writer = largest();
        let number = begun(&mut writer);
        (1..count as u64).for_each(|key| writer.read(number, key, ROWS));
        writer.steps(&[Step::Capture { number, key: 0 }]);
        writer
    };
    vec![edge(capturing(INDEX_READS), "capture 0 0"), edge(capturing(INDEX_READS + 1), "capture 9")]
}

fn pending_writes() -> Vec<Edge> {
    let writing = |count| {
        let mut writer = largest();
        let number = begun(&mut writer);
        writer.steps(&vec![put(number, 0, KEY); count]);
        writer
    };
    vec![edge(writing(PENDING_WRITES), "put 0"), edge(writing(PENDING_WRITES + 1), "put 12")]
}

/// The last so many rows hold the key; the transaction that is to read it, and the log so far.
fn with_key(count: u32) -> (Writer, u64) {
    let mut writer = largest();
    writer.write_each(ROWS - count..ROWS, |number, row| put(number, row, KEY));
    let number = begun(&mut writer);
    (writer, number)
}

/// The line of a read that finds the last so many rows.
fn last_rows(count: u32) -> String {
    let rows = (ROWS - count..ROWS).map(|row| format!(" {row}"));
    format!("rows 0 {count}{}", rows.collect::<String>())
}

/// At once, with rows of the reader's own beside them, and one by a second read.
fn read_records() -> Vec<Edge> {
    let reading = |count| {
        let (mut writer, number) = with_key(count);
        writer.read(number, KEY, ROWS);
        writer
    };
    let (mut own, number) = with_key(RECORDS + WRITES);
    (ROWS - WRITES..ROWS).for_each(|row| own.steps(&[put(number, row, KEY)]));
    own.read(number, KEY, ROWS);

    let with_another = |key| {
        let (mut writer, number) = with_key(RECORDS);
        writer.steps(&[Step::Abort { number }]);
        writer.put_and_publish(0, OTHER_KEY, 0);
        let number = begun(&mut writer);
        writer.read(number, KEY, ROWS);
        writer.read(number, key, ROWS);
        writer
    };
    vec![
        edge(reading(RECORDS), last_rows(RECORDS)),
        edge(reading(RECORDS + 1), "rows 11"),
        edge(own, last_rows(RECORDS + WRITES)),
        edge(with_another(OTHER_KEY), "rows 11"),
        edge(with_another(KEY), last_rows(RECORDS)),
    ]
}

/// Room for all rows is room for any number of them; 10 comes before 11.
fn rooms() -> Vec<Edge> {
    let reading = |count, room| {
        let (mut writer, number) = with_key(count);
        writer.read(number, KEY, room);
        writer
    };
    let too_short = [(RECORDS, RECORDS - 1), (ROWS, ROWS - 1)].map(|(count, room)| edge(reading(count, room), "rows 10"));
    let enough = [RECORDS, ROWS, ROWS + 1, u32::MAX].map(|room| edge(reading(RECORDS, room), last_rows(RECORDS)));
    let all = [ROWS, ROWS + 1, u32::MAX].map(|room| edge(reading(ROWS, room), "rows 11"));
    too_short.into_iter().chain(enough).chain(all).collect()
}

/// A table with one version left, and one with none.
fn versions() -> Vec<Edge> {
    let writing = |used, count| {
        let mut writer = largest();
        writer.use_versions(used);
        for row in 0..count {
            let number = begun(&mut writer);
            writer.steps(&[put(number, row, KEY + u64::from(row)), Step::Prepare { number }]);
        }
        writer
    };
    let mut read_only = writing(VERSIONS, 0);
    let number = begun(&mut read_only);
    read_only.read(number, 0, ROWS);
    read_only.steps(&[Step::Prepare { number }]);
    vec![
        edge(writing(VERSIONS - 1, 1), "prepare 0"),
        // the first has reserved the last one
        edge(writing(VERSIONS - 1, 2), "prepare 13"),
        edge(writing(VERSIONS, 1), "prepare 13"),
        edge(read_only, "prepare 0"),
        edge(last_pointers(), format!("validate 0 2 {} {}", ROWS - 2, VERSIONS - 1)),
    ]
}

/// The last version but one is read, and then the last is written behind it.
fn last_pointers() -> Writer {
    let mut writer = largest();
    writer.use_versions(VERSIONS - 1);
    let (row, key) = (ROWS - 2, u64::from(ROWS - 2));
    let number = begun(&mut writer);
    writer.read(number, key, ROWS);
    writer.put_and_publish(row, key, 1);
    writer.steps(&[Step::Validate { number }]);
    writer
}
