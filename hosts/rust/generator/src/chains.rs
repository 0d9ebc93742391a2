//! Rows with many versions, read by a snapshot that sees the oldest.

use twin::limits::VERSIONS;
use twin::Step;

use crate::writer::Writer;
use crate::Stretch;

/// So many rows of one key, each with so many versions, and how many active numbers the snapshot has that reads them.
#[derive(Clone, Copy, Debug, PartialEq, Eq)]
pub struct Chains {
    pub rows: u32,
    pub versions: u64,
    pub active: u64,
}

/// One row with every version that the tables allow, read `reads` times by a snapshot that sees the first alone.
pub fn longest_chain(reads: u64) -> Vec<u8> {
    with_chains(&Chains { rows: 1, versions: u64::from(VERSIONS), active: 0 }, reads).log
}

/// Such rows, and then reads of them by a snapshot that sees the first version of each alone: that one is older than every active number.
pub fn with_chains(of: &Chains, reads: u64) -> Stretch {
    let mut writer = Writer::open(of.rows, VERSIONS, 1, 1);
    let put_each = |writer: &mut Writer, payload| (0..of.rows).for_each(|row| writer.put_and_publish(row, 0, payload));
    put_each(&mut writer, 0);
    let active: Vec<u64> = (0..of.active).map(|_| writer.begin().expect("at most seven are live")).collect();
    let old = writer.begin().expect("at most seven are live");
    for number in active {
        // it stays among the snapshot's active numbers
        let _ = writer.step(Step::Abort { number });
    }
    for payload in 1..of.versions {
        put_each(&mut writer, payload);
    }
    let from = writer.bytes.len();
    for _ in 0..reads {
        writer.read(old, 0, of.rows);
    }
    Stretch { log: writer.bytes, from }
}
