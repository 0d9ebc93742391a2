//! One version in the wrapper, the header and CHANGELOG.md, and the same limits.

use toruxeng::{limits, VERSION};

const HEADER: &str = include_str!("../../../c/toruxeng.h");
const CHANGES: &str = include_str!("../../../../CHANGELOG.md");

/// What the header defines the name as.
fn defined(name: &str) -> Option<&'static str> {
    HEADER.lines().find_map(|line| line.strip_prefix("#define ")?.strip_prefix(name)?.strip_prefix(' '))
}

#[test]
fn the_header_has_the_version() {
    assert_eq!(defined("TORUXENG_VERSION"), Some(format!("\"{VERSION}\"").as_str()));
    let parts = ["MAJOR", "MINOR", "PATCH"].map(|part| defined(&format!("TORUXENG_VERSION_{part}")).expect("a number"));
    assert_eq!(parts.join("."), VERSION);
}

#[test]
fn the_newest_changes_are_of_the_version() {
    let newest = CHANGES.lines().find_map(|line| line.strip_prefix("## "));
    assert_eq!(newest, Some(VERSION));
}

#[test]
fn the_header_has_the_limits() {
    let sizes = [("ROWS", limits::ROWS), ("VERSIONS", limits::VERSIONS), ("BUCKETS", limits::BUCKETS)];
    let of_a_transaction = [
        ("LIVE", limits::LIVE),
        ("INDEX_READS", limits::INDEX_READS),
        ("READ_RECORDS", limits::READ_RECORDS),
        ("PENDING_WRITES", limits::PENDING_WRITES),
    ];
    for (name, most) in sizes.map(|(name, most)| (name, most as usize)).into_iter().chain(of_a_transaction) {
        assert_eq!(defined(&format!("TORUXENG_MOST_{name}")), Some(most.to_string().as_str()), "{name}");
    }
}
