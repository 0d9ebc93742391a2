//! The call over raw pointers: what can be told of them is answered, and nothing is touched.

use std::ptr::{null, null_mut};

use toruxeng::{replay_raw, Log, RawError, Status, Stopped};

const MARK: u8 = 0xA5;

/// The log of two steps at the front of marked bytes, and its length.
fn log_in_marked_bytes() -> ([u8; 256], usize) {
    let log = Log::open(1, 1, 1, 1).begin().bytes().to_vec();
    let mut bytes = [MARK; 256];
    bytes[..log.len()].copy_from_slice(&log);
    (bytes, log.len())
}

#[test]
fn null_is_a_buffer_only_with_length_0() {
    let (log, length) = log_in_marked_bytes();
    let mut report = [MARK; 64];
    // SAFETY: what is not null is valid for its length
    unsafe {
        assert_eq!(replay_raw(null(), 1, report.as_mut_ptr(), report.len()), Err(RawError::NoBuffer));
        assert_eq!(replay_raw(log.as_ptr(), length, null_mut(), 1), Err(RawError::NoBuffer));
        assert_eq!(report, [MARK; 64]);
        let full = Stopped { status: Status::ReportFull, written: 0 };
        assert_eq!(replay_raw(log.as_ptr(), length, null_mut(), 0), Err(RawError::Stopped(full)));
        assert_eq!(replay_raw(null(), 0, report.as_mut_ptr(), report.len()), Ok(0));
        assert_eq!(replay_raw(null(), 0, null_mut(), 0), Ok(0));
    }
}

#[test]
fn a_length_that_no_buffer_has_is_refused() {
    let mut byte = [MARK];
    let longest = isize::MAX as usize;
    let last_byte = usize::MAX as *const u8;
    // SAFETY: each of these is refused before it is touched
    unsafe {
        assert_eq!(replay_raw(byte.as_ptr(), longest + 1, null_mut(), 0), Err(RawError::NoBuffer));
        assert_eq!(replay_raw(null(), 0, byte.as_mut_ptr(), usize::MAX), Err(RawError::NoBuffer));
        assert_eq!(replay_raw(last_byte, 1, null_mut(), 0), Err(RawError::NoBuffer));
    }
    assert_eq!(byte, [MARK]);
}

#[test]
fn buffers_may_touch_and_not_overlap() {
    let (mut bytes, length) = log_in_marked_bytes();
    let before = bytes;
    let start = bytes.as_mut_ptr();
    for room in 1..64 {
        for at in 0..length {
            // SAFETY: both lie in `bytes`, and the call is refused before it writes
            let answer = unsafe { replay_raw(start, length, start.add(at), room) };
            assert_eq!(answer, Err(RawError::BuffersOverlap), "room {room} at byte {at}");
        }
    }
    assert_eq!(bytes, before);
    let start = bytes.as_mut_ptr();
    // SAFETY: the report begins where the log ends
    assert_eq!(unsafe { replay_raw(start, length, start.add(length), 64) }, Ok("open 0\nbegin 0 1\n".len()));
    assert_eq!(bytes[..length], before[..length]);
    bytes.copy_within(..length, 64);
    let start = bytes.as_mut_ptr();
    // SAFETY: the log begins where the report ends
    assert_eq!(unsafe { replay_raw(start.add(64), length, start, 64) }, Ok("open 0\nbegin 0 1\n".len()));
}

#[test]
fn errors_have_the_numbers_of_the_header() {
    const HEADER: &str = include_str!("../../../c/toruxeng.h");
    let stopped = |status| RawError::Stopped(Stopped { status, written: 0 });
    let named = [
        ("OPEN_REFUSED", stopped(Status::OpenRefused)),
        ("REPORT_FULL", stopped(Status::ReportFull)),
        ("LOG_MALFORMED", stopped(Status::LogMalformed)),
        ("TABLE_SHORT", stopped(Status::TableShort)),
        ("NO_BUFFER", RawError::NoBuffer),
        ("BUFFERS_OVERLAP", RawError::BuffersOverlap),
    ];
    for (name, error) in named {
        let number = format!("TORUXENG_{name} = {}", error.number());
        assert!(HEADER.lines().any(|line| line.trim_start().split([',', ' ']).take(3).eq(number.split(' '))), "{number}");
    }
    assert_eq!(RawError::BuffersOverlap.to_string(), "two of the buffers overlap");
}
