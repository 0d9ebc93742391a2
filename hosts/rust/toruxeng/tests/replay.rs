//! The wrapper over the engine itself.

mod document;

use std::env;
use std::error::Error;
use std::process::Command;

use document::worked_example;
use toruxeng::{replay, replay_or_abort, Log, Refusal, Status, Stopped};

const PRINTED: &str = include_str!("../../../../crates/run_log/stdout");
const GUARD: usize = 64;
const MARK: u8 = 0xA5;

#[test]
fn the_worked_example_prints_its_report() {
    let log = worked_example();
    let mut report = vec![0; log.report_room()];
    let report = replay(log.bytes(), &mut report).expect("status 0");
    assert_eq!(std::str::from_utf8(report.bytes()), Ok(PRINTED));
    assert_eq!(report.lines().count(), 20);
    let mut again = [0; 1024];
    assert_eq!(replay_or_abort(log.bytes(), &mut again).bytes(), report.bytes());
}

#[test]
fn every_room_gives_whole_lines_and_touches_nothing_else() {
    let log = worked_example();
    for room in 0..PRINTED.len() + 2 {
        let mut guarded = vec![MARK; GUARD + room + GUARD];
        let answer = replay(log.bytes(), &mut guarded[GUARD..GUARD + room]);
        assert_eq!(answer.is_ok(), room >= PRINTED.len());
        let written = match answer {
            Ok(report) => report.bytes().len(),
            Err(stopped) => {
                assert_eq!(stopped.status, Status::ReportFull);
                stopped.written
            }
        };
        let whole = PRINTED[..room.min(PRINTED.len())].rfind('\n').map_or(0, |end| end + 1);
        assert_eq!(written, whole);
        assert_eq!(&guarded[GUARD..GUARD + written], &PRINTED.as_bytes()[..whole]);
        assert!(guarded[..GUARD].iter().chain(&guarded[GUARD + written..]).all(|&byte| byte == MARK));
    }
}

#[test]
fn a_stopped_replay_keeps_its_lines() {
    let mut report = [0; 64];
    let refused = replay(Log::open(0, 1, 1, 1).bytes(), &mut report).expect_err("no rows");
    assert_eq!((refused.status, refused.report(&report).bytes()), (Status::OpenRefused, &b"open 1\n"[..]));
    assert_eq!(refused.to_string(), "replay stopped with status 1: the open was refused");

    let mut log = Log::open(1, 1, 1, 1).begin().bytes().to_vec();
    log.push(0);
    let malformed = replay(&log, &mut report).expect_err("a stray byte");
    assert_eq!(malformed.status, Status::LogMalformed);
    let lines = malformed.report(&report);
    assert_eq!(lines.bytes(), b"open 0\nbegin 0 1\nbad 15\n");
    assert_eq!(lines.last().expect("a last line").answer, Err(Refusal::Malformed));
}

#[test]
fn errors_leave_a_function_whose_buffer_is_its_own() {
    fn replayed(log: &Log) -> Result<usize, Box<dyn Error>> {
        let mut report = [0; 64];
        let last = replay(log.bytes(), &mut report)?.last().ok_or("no line")?;
        last.answer?;
        Ok(report.len())
    }
    let stopped = replayed(&Log::open(1, 1, 0, 1)).expect_err("no buckets");
    assert!(stopped.downcast_ref::<Stopped>().is_some_and(|stopped| stopped.status == Status::OpenRefused));
    let refused = replayed(Log::open(1, 1, 1, 1).begin().erase(1, 1)).expect_err("no row 1");
    assert_eq!(refused.downcast_ref(), Some(&Refusal::RowOutOfRange));
    assert_eq!(refused.to_string(), "refused with 6: there is no such row");
    assert!(replayed(Log::open(1, 1, 1, 1).begin()).is_ok());
}

#[test]
fn an_empty_log_and_an_empty_report_are_fine() {
    assert_eq!(replay(&[], &mut []).expect("nothing to do").bytes(), b"");
    let full = replay(Log::open(1, 1, 1, 1).bytes(), &mut []).expect_err("no room");
    assert_eq!(full, Stopped { status: Status::ReportFull, written: 0 });
}

#[test]
fn replay_or_abort_aborts() {
    const ABORTS: &str = "TORUXENG_TEST_ABORTS";
    if env::var_os(ABORTS).is_some() {
        replay_or_abort(&[0], &mut [0; 64]);
        return;
    }
    let itself = env::current_exe().expect("the test knows its program");
    let output = Command::new(itself)
        .args(["--exact", "replay_or_abort_aborts", "--nocapture"])
        .env(ABORTS, "")
        .output()
        .expect("the test can run itself");
    use std::os::unix::process::ExitStatusExt;
    const SIGABRT: i32 = 6;
    assert_eq!(output.status.signal(), Some(SIGABRT));
    assert!(String::from_utf8_lossy(&output.stderr).contains("replay stopped with status 15: the log is malformed"));
}
