//! The program as a person runs it: answers, exit codes, streams.

use std::ffi::{OsStr, OsString};
use std::fs;
use std::io::Write;
use std::os::unix::ffi::OsStringExt;
use std::path::PathBuf;
use std::process::{Command, Output, Stdio};

const PRINTED: &str = include_str!("../../../../crates/run_log/stdout");

/// The worked example of document 01.
const WORDS: &str = "# the worked example
open 4 8 4 1
begin
put 1 2 6 10
prepare 1
install 1
end 1
publish 1   # stamp 2

begin
capture 3 6
collect 3
rows 3 4
begin
put 4 0 2 7
prepare 4
validate 3
install 4
end 4
publish 4
validate 3
prepare 3
";

fn toruxeng(arguments: &[impl AsRef<OsStr>], input: &[u8]) -> Output {
    let mut process = Command::new(env!("CARGO_BIN_EXE_toruxeng"))
        .args(arguments)
        .stdin(Stdio::piped())
        .stdout(Stdio::piped())
        .stderr(Stdio::piped())
        .spawn()
        .expect("the program runs");
    // a program that is wrongly used ends without reading
    let _ = process.stdin.take().expect("its input is a pipe").write_all(input);
    process.wait_with_output().expect("the program ends")
}

/// What it wrote, where it ended with 0 and said nothing else.
fn answer(arguments: &[&str], input: &[u8]) -> Vec<u8> {
    let output = toruxeng(arguments, input);
    assert_eq!((output.status.code(), String::from_utf8_lossy(&output.stderr)), (Some(0), "".into()), "{arguments:?}");
    output.stdout
}

/// The exit code, what it wrote and what it said, which is never a panic.
fn failure(arguments: &[impl AsRef<OsStr>], input: &[u8]) -> (Option<i32>, String, String) {
    let output = toruxeng(arguments, input);
    let said = String::from_utf8_lossy(&output.stderr).into_owned();
    assert!(said.starts_with("toruxeng: ") && !said.contains("panicked"), "{said}");
    (output.status.code(), String::from_utf8_lossy(&output.stdout).into_owned(), said)
}

fn worked_example() -> Vec<u8> {
    answer(&["pack", "-"], WORDS.as_bytes())
}

fn kept_file(name: &str, bytes: &[u8]) -> PathBuf {
    let file = PathBuf::from(env!("CARGO_TARGET_TMPDIR")).join(name);
    fs::write(&file, bytes).expect("the tests' folder can be written to");
    file
}

#[test]
fn words_become_a_log_and_the_log_its_report() {
    let log = worked_example();
    assert_eq!(String::from_utf8(answer(&["replay", "-"], &log)), Ok(PRINTED.to_string()));
    let file = kept_file("worked_example.log", &log);
    assert_eq!(answer(&["replay", file.to_str().expect("a plain name")], b""), PRINTED.as_bytes());
}

#[test]
fn show_gives_the_words_back_with_the_answers_below_each_other() {
    let log = worked_example();
    let shown = String::from_utf8(answer(&["show", "-"], &log)).expect("words are text");
    let (words, answers): (Vec<&str>, Vec<&str>) = shown.lines().filter_map(|line| line.split_once("  # ")).unzip();
    assert_eq!(answers.join("\n") + "\n", PRINTED);
    assert!(words.iter().all(|word| word.len() == words[0].len()));
    assert_eq!(words[8].trim_end(), "capture 3 6");
    assert_eq!(answer(&["pack", "-"], shown.as_bytes()), log);
}

#[test]
fn a_log_that_is_not_good_ends_with_1_and_its_good_part() {
    let mut log = worked_example();
    log.extend([10, 0, 4]);
    let (code, report, said) = failure(&["replay", "-"], &log);
    assert_eq!((code, report), (Some(1), format!("{PRINTED}bad 15\n")));
    assert_eq!(said, "toruxeng: replay stopped with status 15: the log is malformed\n");
    let (code, shown, said) = failure(&["show", "-"], &log);
    assert_eq!((code, shown.lines().count()), (Some(1), 20));
    assert_eq!(said, format!("toruxeng: record 21: the record at byte {} is cut\n", log.len() - 3));
    let (code, counts, said_by_check) = failure(&["check", "-"], &log);
    assert_eq!((code, said_by_check), (Some(1), said));
    assert!(counts.starts_with("good before the fault: 20 records (1 open, 3 begin, 1 capture,"), "{counts}");
}

#[test]
fn check_counts_the_records_of_a_good_log() {
    let counts = String::from_utf8(answer(&["check", "-"], &worked_example())).expect("counts are text");
    let by_kind = "1 open, 3 begin, 1 capture, 1 collect, 1 rows, 2 put, 3 prepare, 2 install, 2 end, 2 publish, 2 validate";
    assert_eq!(counts, format!("well formed: 20 records ({by_kind})\n"));
    assert_eq!(answer(&["check", "-"], b""), b"well formed: no record\n");
}

#[test]
fn opens_that_are_misplaced_missing_or_refused_are_told() {
    let said_of = |words: &str| {
        let log = answer(&["pack", "-"], words.as_bytes());
        let (code, _, said) = failure(&["check", "-"], &log);
        assert_eq!(code, Some(1));
        assert_eq!(failure(&["show", "-"], &log).2, said);
        said
    };
    assert_eq!(said_of("begin"), "toruxeng: record 1: the record at byte 0 is a begin, but the first must be an open\n");
    let twice = said_of("open 1 1 1 1\nbegin\nopen 1 1 1 1");
    assert_eq!(twice, "toruxeng: record 3: the record at byte 28 is an open, which only the first may be\n");
    let refused = said_of("open 0 1 1 1\nopen 1 1 1 1");
    assert!(refused.starts_with("toruxeng: record 1: the open is refused with 1: "), "{refused}");
}

#[test]
fn a_wrong_line_of_words_is_named() {
    for (words, said) in [
        ("open 4 8 4 1\n\n# begin\ncapture 3", "line 4: capture takes 2 numbers, not 1"),
        ("begin\nstart", "line 2: no step is called 'start'"),
        ("rows 1 4294967296", "line 1: '4294967296' is no number that fits here"),
        ("erase 1 -1", "line 1: '-1' is no number that fits here"),
    ] {
        assert_eq!(failure(&["pack", "-"], words.as_bytes()), (Some(1), String::new(), format!("toruxeng: {said}\n")));
    }
    assert_eq!(failure(&["pack", "-"], b"begin\xff").0, Some(1));
}

#[test]
fn wrong_usage_ends_with_2() {
    let wrong: [&[&str]; 12] = [
        &[],
        &["frob"],
        &[""],
        &["replay"],
        &["check", "a", "b"],
        &["help", "me"],
        &["orders", "a"],
        &["orders", "a", "b", "c", "d"],
        &["orders", "a", "b", "--html"],
        &["orders", "a", "b", "--html", "-"],
        &["orders", "a", "b", "--html", "c", "--html", "d"],
        &["orders", "-", "-"],
    ];
    for arguments in wrong {
        let (code, written, said) = failure(arguments, b"");
        assert_eq!((code, written), (Some(2), String::new()), "{arguments:?}");
        assert!(said.ends_with("`toruxeng help` lists the commands\n"), "{said}");
    }
    assert_eq!(failure(&["orders", "a", "b", "--colour"], b"").0, Some(2));
}

#[test]
fn a_file_that_cannot_be_read_or_written_ends_with_3() {
    let no_text = OsString::from_vec(b"no\xfftext".to_vec());
    let folder = env!("CARGO_TARGET_TMPDIR");
    for file in [OsStr::new("no/such/file"), OsStr::new(folder), &no_text] {
        let (code, written, said) = failure(&[OsStr::new("show"), file], b"");
        assert_eq!((code, written), (Some(3), String::new()));
        assert!(said.starts_with("toruxeng: cannot read "), "{said}");
    }
    let full = fs::File::create("/dev/full").expect("a device that takes nothing");
    let output = Command::new(env!("CARGO_BIN_EXE_toruxeng")).arg("help").stdout(full).output().expect("the program runs");
    assert_eq!(output.status.code(), Some(3));
}

#[test]
fn a_closed_pipe_ends_quietly() {
    // more than a pipe holds
    let words = "open 4 8 4 1\n".to_string() + &"begin\n".repeat(40_000);
    let log = answer(&["pack", "-"], words.as_bytes());
    let file = kept_file("long.log", &log);
    let mut process = Command::new(env!("CARGO_BIN_EXE_toruxeng"))
        .arg("show")
        .arg(file)
        .stdout(Stdio::piped())
        .stderr(Stdio::piped())
        .spawn()
        .expect("the program runs");
    drop(process.stdout.take());
    let output = process.wait_with_output().expect("the program ends");
    assert_eq!((output.status.code(), output.stderr), (Some(0), Vec::new()));
}

#[test]
fn help_and_version_are_there() {
    let help = String::from_utf8(answer(&["help"], b"")).expect("text");
    for command in ["replay", "check", "show", "pack", "orders", "help", "version"] {
        assert!(help.contains(&format!("  toruxeng {command}")), "{command}");
    }
    assert_eq!(answer(&["version"], b""), format!("toruxeng {}\n", env!("CARGO_PKG_VERSION")).as_bytes());
}
