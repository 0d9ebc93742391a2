//! The same work over stores of different sizes: the same kinds of steps, all accepted, each read of one row.

use generator::{with_posted, Posted, Random, Stretch, STEPS_OF_A_ROUND};

const ROUNDS: u64 = 20;

/// The report's lines of the steps that count, all of them accepted: of those of reads how many rows they found, and of others all.
fn worked(of: &Posted) -> Vec<String> {
    let Stretch { log, from } = with_posted(of, ROUNDS, &mut Random::of_seed(1));
    let [before, whole] = [&log[..from], &log].map(|log| String::from_utf8(twin::whole_report(log).1).expect("a report is text"));
    assert!(whole.lines().all(|line| line.split(' ').nth(1) == Some("0")), "{of:?}");
    whole[before.len()..].lines().map(without_values).collect()
}

/// A row and a stamp depend on the sizes; how many rows are found, and the numbers of transactions, do not.
fn without_values(line: &str) -> String {
    let words: Vec<&str> = line.split(' ').collect();
    let kept = if words[0] == "capture" { 2 } else { words.len().min(3) };
    words[..kept].join(" ")
}

#[test]
fn the_sizes_change_nothing_but_rows_and_captured_stamps() {
    let expected = worked(&Posted { rows: 16, buckets: 64 });
    assert_eq!(expected.len() as u64, ROUNDS * STEPS_OF_A_ROUND);
    assert!(expected.iter().all(|line| !line.starts_with("collect") || line == "collect 0 1"));
    for rows in [16, 64, 256, 1024] {
        for buckets in [64, 4096] {
            assert_eq!(worked(&Posted { rows, buckets }), expected, "{rows} rows, {buckets} buckets");
        }
    }
}

#[test]
#[should_panic(expected = "too many versions")]
fn rounds_that_a_table_has_no_versions_for_are_none() {
    with_posted(&Posted { rows: 1024, buckets: 64 }, 1025, &mut Random::of_seed(1));
}
