//! Keys read through the engine behind a turn, since its report shows no rows at the end.

use std::collections::BTreeSet;

use generator::Random;
use twin::limits::ROWS;
use twin::{Content, Step};

use crate::in_turn::Apart;
use crate::number;

/// So many keys of a log are read back.
const KEYS: usize = 4;
/// The steps that read one, and which of them answers the rows.
const READING: usize = 5;
const ANSWER: usize = 3;

/// Some of the keys that the steps read or put.
pub fn some_keys(steps: &[Step], random: &mut Random) -> Vec<u64> {
    let used: BTreeSet<u64> = steps.iter().filter_map(key).collect();
    let mut left: Vec<u64> = used.into_iter().collect();
    (0..KEYS.min(left.len())).map(|_| left.swap_remove(random.below(left.len() as u64) as usize)).collect()
}

fn key(step: &Step) -> Option<u64> {
    match *step {
        Step::Capture { key, .. } | Step::Put { key, .. } => Some(key),
        _ => None,
    }
}

/// A read of each key by a transaction of its own that is given up; `clock` is the first one's number.
pub fn reading(keys: &[u64], clock: u64) -> Vec<Step> {
    // where the numbers are used up, begin is refused and the steps behind it name nobody
    let numbered = keys.iter().enumerate().map(|(place, &key)| (clock.saturating_add(place as u64), key));
    numbered.flat_map(|(number, key)| read(number, key)).collect()
}

fn read(number: u64, key: u64) -> [Step; READING] {
    let rows = Step::Rows { number, room: ROWS };
    [Step::Begin, Step::Capture { number, key }, Step::Collect { number }, rows, Step::Abort { number }]
}

/// How many keys were read back, each with the rows that carry it at the end of the run; the lines are those of [`reading`].
pub fn same_keys(rows: &[Option<Content>], keys: &[u64], lines: &[String]) -> Result<u64, Apart> {
    let mut read = 0;
    for (&key, lines) in keys.iter().zip(lines.chunks(READING)) {
        if lines.iter().any(|line| number(line) != 0) {
            continue;
        }
        let [run, turn] = [carrying(key, rows), answered(&lines[ANSWER])];
        if run != turn {
            return Err(Apart::ReadBack { key, run, turn });
        }
        read += 1;
    }
    Ok(read)
}

fn carrying(key: u64, rows: &[Option<Content>]) -> Vec<u32> {
    (0..).zip(rows).filter(|(_, row)| row.is_some_and(|row| row.key == key)).map(|(row, _)| row).collect()
}

/// The rows of a line `rows 0 C R1 .. RC`.
fn answered(line: &str) -> Vec<u32> {
    line.split(' ').skip(3).map(|row| row.parse().expect("a row is a number")).collect()
}
