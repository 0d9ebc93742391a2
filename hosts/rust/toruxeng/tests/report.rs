//! Lines as values, of reports that were kept as bytes.

use toruxeng::limits::{INDEX_READS, LIVE, PENDING_WRITES, READ_RECORDS, ROWS};
use toruxeng::{Advice, Kind, Line, Log, Refusal, Report, Values, Verdict};

const PRINTED: &str = include_str!("../../../../crates/run_log/stdout");

fn only_line(text: &str) -> Line<'_> {
    let mut lines = Report::of_bytes(text.as_bytes()).expect("a report").lines();
    let line = lines.next().expect("it has a line");
    assert_eq!(lines.next(), None);
    line
}

#[test]
fn each_kind_of_line_has_its_values() {
    let ok = |kind, values| Line { kind, answer: Ok(values) };
    assert_eq!(only_line("open 0\n"), ok(Kind::Open, Values::Nothing));
    assert_eq!(only_line("begin 0 18446744073709551613\n"), ok(Kind::Begin, Values::Number(u64::MAX - 2)));
    assert_eq!(only_line("capture 0 2\n"), ok(Kind::Capture, Values::Stamp(2)));
    assert_eq!(only_line("collect 0 17\n"), ok(Kind::Collect, Values::Count(17)));
    assert_eq!(only_line("publish 0 5\n"), ok(Kind::Publish, Values::Stamp(5)));
    assert_eq!(only_line("validate 0 0\n"), ok(Kind::Validate, Values::Verdict(Verdict::Clear)));
    let stamp = Verdict::StampChanged { bucket: 2, captured: 2, present: 5 };
    assert_eq!(only_line("validate 0 1 2 2 5\n"), ok(Kind::Validate, Values::Verdict(stamp)));
    let row = Verdict::RowChanged { row: 7, pointer: 9 };
    assert_eq!(only_line("validate 0 2 7 9\n"), ok(Kind::Validate, Values::Verdict(row)));
    assert_eq!(only_line("validate 0 3\n"), ok(Kind::Validate, Values::Verdict(Verdict::Marked)));
    assert_eq!(only_line("bad 15\n"), Line { kind: Kind::Bad, answer: Err(Refusal::Malformed) });
}

#[test]
fn rows_are_counted_and_ascending() {
    let Ok(Values::Rows(rows)) = only_line("rows 0 3 0 7 1023\n").answer else { panic!("rows have their rows") };
    assert_eq!((rows.len(), rows.collect::<Vec<_>>()), (3, vec![0, 7, 1023]));
    let Ok(Values::Rows(mut none)) = only_line("rows 0 0\n").answer else { panic!("rows have their rows") };
    assert_eq!((none.len(), none.next()), (0, None));
}

#[test]
fn the_printed_report_reads_back() {
    let report = Report::of_bytes(PRINTED.as_bytes()).expect("a report");
    let kinds: Vec<&str> = report.lines().map(|line| line.kind.word()).collect();
    let words: Vec<&str> = PRINTED.lines().map(|line| line.split(' ').next().expect("a word")).collect();
    assert_eq!(kinds, words);
    assert_eq!(report.last(), Some(Line { kind: Kind::Prepare, answer: Err(Refusal::Conflict) }));
    assert_eq!(report.lines().filter(|line| line.number() == 7).count(), 1);
    assert_eq!(Report::of_bytes(b"").expect("an empty report").last(), None);
}

#[test]
fn what_is_no_line_is_refused() {
    let lines = [
        "open",
        "open 0",
        "open \n",
        "open 00\n",
        "open 17\n",
        "open 0 1\n",
        "open 1 1\n",
        "Open 0\n",
        "opens 0\n",
        " open 0\n",
        "begin 0\n",
        "begin 0 \n",
        "begin 0 1 2\n",
        "begin 0 18446744073709551616\n",
        "begin 0 +1\n",
        "put 0 0\n",
        "bad 0\n",
        "rows 0\n",
        "rows 0 1\n",
        "rows 0 1 \n",
        "rows 0 0 \n",
        "rows 0 1 1024\n",
        "rows 0 2 1\n",
        "validate 0\n",
        "validate 0 1 2 2\n",
        "validate 0 4\n",
        "validate 0 3 1\n",
        "open 0\r\n",
        "open 0\n\n",
        "open 0\nput",
        "capture -1\n",
    ];
    for line in lines {
        assert_eq!(Report::of_bytes(line.as_bytes()), None, "{line:?}");
    }
    assert_eq!(Report::of_bytes(b"open \xff\n"), None);
}

#[test]
fn refusals_have_their_numbers_and_advice() {
    assert!(Refusal::ALL.iter().map(|refusal| refusal.number()).eq(1..=16));
    let advised = |advice| Refusal::ALL.into_iter().filter(move |refusal| refusal.advice() == advice).map(Refusal::number);
    assert!(advised(Advice::TryLater).eq([7]));
    assert!(advised(Advice::BeginAnew).eq([8, 14]));
    assert!(advised(Advice::MakeRoom).eq([2, 3, 9, 10, 11, 12, 13]));
    assert!(advised(Advice::Correct).eq([1, 4, 5, 6, 15, 16]));
}

#[test]
fn refusals_name_their_limits() {
    let limits = [
        (Refusal::IndexReadsFull, INDEX_READS),
        (Refusal::ReadRecordsFull, READ_RECORDS),
        (Refusal::PendingWritesFull, PENDING_WRITES),
    ];
    for (refusal, limit) in limits {
        assert!(refusal.to_string().contains(&format!(" {limit} ")), "{refusal}");
    }
    assert_eq!(LIVE, 8, "in words: {}", Refusal::TooManyLive);
}

#[test]
fn a_log_tells_the_room_of_its_report() {
    let mut log = Log::open(1, 1, 1, 1);
    assert_eq!(log.report_room(), 60);
    assert_eq!(log.begin().rows(1, ROWS).report_room(), 60 + 60 + 611);
}
