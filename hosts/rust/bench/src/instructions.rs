//! Instructions of the engines' work, counted by valgrind's callgrind, the same at every run: what one run takes more than another.

use std::env;
use std::io::Write;
use std::ops::Range;
use std::process::{Child, Command, Stdio};

use crate::engine::Engine;

/// Of one replay of the benchmark log; or why they were not counted.
pub fn of_a_replay(engine: Engine) -> Result<u64, String> {
    let rounds = |rounds: &str| start(&[], &["once", engine.name(), rounds].map(str::to_string), &[]);
    between(rounds("1")?, rounds("2")?)
}

/// Of these parts of a log together, by the proved engine: for each the log is cut just before it and just behind it.
pub fn of_parts(log: &[u8], parts: &[Range<usize>]) -> Result<u64, String> {
    let before = parts.iter().map(|part| part.start);
    let behind = parts.iter().map(|part| part.end);
    between(start_cuts(log, before)?, start_cuts(log, behind)?)
}

/// The log once for each length and cut to it. Only the engine is counted: how a log comes through a pipe is not the same at every run.
fn start_cuts(log: &[u8], lengths: impl Iterator<Item = usize>) -> Result<Child, String> {
    // words as long as others of their number: where the stack begins, and so how it is aligned, depends on them
    let lengths = lengths.map(|length| format!("{length:012}"));
    let words: Vec<String> = ["cuts".to_string()].into_iter().chain(lengths).collect();
    start(&["--toggle-collect=toruxeng_replay"], &words, log)
}

/// This program with these words and this input, counted.
fn start(options: &[&str], words: &[String], input: &[u8]) -> Result<Child, String> {
    let itself = env::current_exe().map_err(|error| error.to_string())?;
    let mut child = Command::new("valgrind")
        .args(["--tool=callgrind", "--callgrind-out-file=/dev/null"])
        .args(options)
        .arg(itself)
        .args(words)
        .stdin(Stdio::piped())
        .stdout(Stdio::null())
        .stderr(Stdio::piped())
        .spawn()
        .map_err(|error| format!("valgrind: {error}"))?;
    let mut to = child.stdin.take().expect("its input is a pipe");
    to.write_all(input).map_err(|error| format!("valgrind: {error}"))?;
    Ok(child)
}

/// What the second, which does the same and more, takes more than the first.
fn between(less: Child, more: Child) -> Result<u64, String> {
    let [less, more] = [collected(less)?, collected(more)?];
    more.checked_sub(less).ok_or_else(|| format!("{less} instructions, and {more} with more to do"))
}

/// What valgrind says of a run at its end.
fn collected(child: Child) -> Result<u64, String> {
    let output = child.wait_with_output().map_err(|error| error.to_string())?;
    let said = String::from_utf8_lossy(&output.stderr);
    let collected = said.lines().find_map(|line| line.split_once("Collected : "));
    let count = collected.filter(|_| output.status.success()).and_then(|(_, count)| count.trim().parse().ok());
    count.ok_or_else(|| format!("valgrind said: {said}"))
}
