//! The families together give every answer that a log can get, and mostly accepted steps where they are meant to.

use std::collections::{BTreeMap, BTreeSet};

use generator::{edges, log, room, Family, Random};
use told::{told, OFTEN};
use twin::limits::PENDING_WRITES;
use twin::Step;

mod told;

const LOGS: u64 = 4000;
const STEPS: u64 = 60;

/// Each word with the numbers that a log can get for it.
const NUMBERS: [(&str, &[u32]); 14] = [
    ("open", &[0, 1]),
    ("begin", &[0, 2, 3]),
    ("capture", &[0, 4, 5, 7, 8, 9]),
    ("collect", &[0, 4, 5]),
    ("rows", &[0, 4, 5, 10, 11]),
    ("put", &[0, 4, 5, 6, 8, 12]),
    ("erase", &[0, 4, 5, 6, 8, 12]),
    ("prepare", &[0, 4, 5, 7, 13, 14]),
    ("install", &[0, 4, 5]),
    ("end", &[0, 4, 5]),
    ("publish", &[0, 4, 5]),
    ("validate", &[0, 4, 5, 7]),
    ("abort", &[0, 4, 5]),
    ("bad", &[15]),
];

/// The same of a transaction behind the capture that marked it: it is Open until it is aborted.
const NUMBERS_MARKED: [(&str, &[u32]); 11] = [
    ("capture", &[8]),
    ("collect", &[5]),
    ("rows", &[5]),
    ("put", &[8]),
    ("erase", &[8]),
    ("prepare", &[7, 14]),
    ("install", &[5]),
    ("end", &[5]),
    ("publish", &[5]),
    ("validate", &[0, 7]),
    ("abort", &[0]),
];

/// The longest lines, as the host wrapper counts on them.
const LONGEST_ROWS_LINE: usize = 611;
const LONGEST_OTHER_LINE: usize = 60;

/// How often each line's word and number came.
type Lines = BTreeMap<(String, u32), u64>;

/// Each word has just these numbers, and each of them often.
fn assert_numbers(lines: &Lines, numbers: &[(&str, &[u32])]) {
    for (word, numbers) in numbers {
        let found: Vec<u32> = lines.keys().filter(|(other, _)| other == word).map(|&(_, number)| number).collect();
        assert_eq!(found, *numbers, "{word}");
    }
    let rarest = lines.iter().min_by_key(|(_, count)| **count).expect("there are lines");
    assert!(*rarest.1 >= OFTEN, "{rarest:?} is too rare to try anything");
}

/// How often each line's word and number came, verdicts as a third part, and how often each status.
#[derive(Default)]
struct Counts {
    lines: Lines,
    verdicts: BTreeMap<u32, u64>,
    statuses: BTreeMap<u64, u64>,
}

impl Counts {
    fn add(&mut self, log: &[u8], room: usize) {
        let mut report = vec![0; room];
        let answer = twin::replay(log, &mut report);
        *self.statuses.entry(answer >> 32).or_default() += 1;
        let written = std::str::from_utf8(&report[..answer as u32 as usize]).expect("a report is text");
        for line in written.lines() {
            let mut words = line.split(' ');
            let word = words.next().expect("a line has its word").to_string();
            let longest = if word == "rows" { LONGEST_ROWS_LINE } else { LONGEST_OTHER_LINE };
            assert!(line.len() < longest, "{line}");
            let mut number = || words.next().map(|number| number.parse::<u32>().expect("a number"));
            let first = number().expect("a line has its number");
            if (word.as_str(), first) == ("validate", 0) {
                *self.verdicts.entry(number().expect("a verdict")).or_default() += 1;
            }
            *self.lines.entry((word, first)).or_default() += 1;
        }
    }

    fn share(&self, number: u32) -> f64 {
        let all: u64 = self.lines.values().sum();
        let of_number: u64 = self.lines.iter().filter(|((_, other), _)| *other == number).map(|(_, count)| count).sum();
        100.0 * of_number as f64 / all as f64
    }
}

/// The transaction that a step names.
fn number_of(step: &Step) -> Option<u64> {
    match *step {
        Step::Open { .. } | Step::Begin => None,
        Step::Capture { number, .. }
        | Step::Collect { number }
        | Step::Rows { number, .. }
        | Step::Put { number, .. }
        | Step::Erase { number, .. }
        | Step::Prepare { number }
        | Step::Install { number }
        | Step::End { number }
        | Step::Publish { number }
        | Step::Validate { number }
        | Step::Abort { number } => Some(number),
    }
}

/// The lines of marked transactions.
#[derive(Default)]
struct Marked {
    lines: Lines,
    /// The refused writes by word, whether the row is out of range (6) and whether 16 writes are pending (12).
    writes: BTreeMap<(String, bool, bool), u64>,
}

impl Marked {
    fn add(&mut self, log: &[u8]) {
        let mut row_count = 0;
        let mut pending: BTreeMap<u64, usize> = BTreeMap::new();
        let mut marked = BTreeSet::new();
        for (step, answer) in told(log) {
            if let Step::Open { rows, .. } = step {
                row_count = rows;
            }
            let Some(number) = number_of(&step) else { continue };
            let word = step.word();
            if marked.contains(&number) {
                *self.lines.entry((word.to_string(), answer)).or_default() += 1;
            }
            let writes = pending.entry(number).or_default();
            match (step, answer) {
                (Step::Put { .. } | Step::Erase { .. }, 0) => *writes += 1,
                (Step::Put { row, .. } | Step::Erase { row, .. }, 8) => {
                    *self.writes.entry((word.to_string(), row >= row_count, *writes == PENDING_WRITES)).or_default() += 1;
                }
                (Step::Capture { .. }, 8) => {
                    marked.insert(number);
                }
                (Step::Abort { .. }, 0) => {
                    marked.remove(&number);
                }
                _ => {}
            }
        }
    }
}

fn counts(families: &[Family]) -> Counts {
    let mut random = Random::of_seed(1);
    let mut counts = Counts::default();
    for &family in families {
        for _ in 0..LOGS {
            let steps = random.from_to(1, STEPS);
            let log = log(family, steps, &mut random);
            let length = twin::whole_report(&log).1.len();
            counts.add(&log, room(length, &mut random));
        }
    }
    counts
}

#[test]
fn every_answer_occurs() {
    let counts = counts(&Family::ALL);
    assert_numbers(&counts.lines, &NUMBERS);
    assert_eq!(counts.verdicts.keys().copied().collect::<Vec<_>>(), [0, 1, 2, 3]);
    assert_eq!(counts.statuses.keys().copied().collect::<Vec<_>>(), [0, 1, 10, 15]);
}

#[test]
fn the_longest_line_occurs() {
    let longest = edges().into_iter().map(|edge| edge.last_line.len() + "\n".len()).max();
    assert_eq!(longest, Some(LONGEST_ROWS_LINE));
}

#[test]
fn every_answer_to_a_marked_transaction_occurs() {
    let mut random = Random::of_seed(1);
    let mut marked = Marked::default();
    for family in [Family::Mixed, Family::Contended, Family::Limits] {
        for _ in 0..LOGS {
            let steps = random.from_to(1, STEPS);
            marked.add(&log(family, steps, &mut random));
        }
    }
    assert_numbers(&marked.lines, &NUMBERS_MARKED);
    assert_eq!(marked.writes.len(), 8, "put and erase, each with 6 and with 12 or without: {:?}", marked.writes);
    assert!(marked.writes.values().all(|&count| count >= OFTEN), "{:?}", marked.writes);
}

#[test]
fn most_steps_are_accepted() {
    for family in [Family::Mixed, Family::Contended, Family::Limits] {
        let accepted = counts(&[family]).share(0);
        assert!(accepted > 60.0, "{family:?}: {accepted:.1} percent");
    }
}

/// `cargo test -p generator -- --ignored --nocapture` prints the shares.
#[test]
#[ignore = "a table to look at"]
fn print_shares() {
    print!("{:<12}", "percent of");
    (0..=15).for_each(|number| print!("{number:>7}"));
    println!();
    for family in Family::ALL {
        let counts = counts(&[family]);
        print!("{:<12}", format!("{family:?}"));
        (0..=15).for_each(|number| print!("{:>7.2}", counts.share(number)));
        println!("  lines {}", counts.lines.values().sum::<u64>());
    }
    let counts = counts(&Family::ALL);
    println!("verdicts {:?}\nstatuses {:?}", counts.verdicts, counts.statuses);
    for ((word, number), count) in &counts.lines {
        println!("{word} {number}: {count}");
    }
}
