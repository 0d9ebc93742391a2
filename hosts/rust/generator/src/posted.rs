//! The same work over stores of any size, whose rows are all posted.

use twin::limits::{PENDING_WRITES, ROWS, VERSIONS};
use twin::Step;

use crate::random::Random;
use crate::writer::{committing, put, reading, Writer};
use crate::Stretch;

/// So many rows, each under a key of its own; the keys are spread evenly over so many buckets.
#[derive(Clone, Copy, Debug, PartialEq, Eq)]
pub struct Posted {
    pub rows: u32,
    pub buckets: u32,
}

/// The steps of one round, and the versions that it takes.
pub const STEPS_OF_A_ROUND: u64 = 45;
const VERSIONS_OF_A_ROUND: u64 = 3;
/// Where the clock stands when the work begins, so that its numbers have as many digits in any store.
const CLOCK: u64 = 20_000;

/// Such a store, and then so many rounds of work. In stores of other sizes the steps are of the same kinds in the same order, all are
/// accepted, and each read finds one row.
///
/// # Panics
/// Where the store has too few versions for that.
pub fn with_posted(of: &Posted, rounds: u64, random: &mut Random) -> Stretch {
    assert!(u64::from(of.rows) + rounds * VERSIONS_OF_A_ROUND <= VERSIONS.into(), "{rounds} rounds take too many versions");
    let mut worked = Worked::filled(of);
    let from = worked.writer.bytes.len();
    for _ in 0..rounds {
        worked.round(random);
    }
    Stretch { log: worked.writer.bytes, from }
}

struct Worked {
    writer: Writer,
    buckets: u64,
    /// The key that each row has now.
    keys: Vec<u64>,
}

impl Worked {
    fn filled(of: &Posted) -> Worked {
        let apart = (of.buckets / of.rows).max(1);
        let keys: Vec<u64> = (0..of.rows).map(|row| u64::from(row * apart)).collect();
        // each transaction that fills the store moves the clock by two
        let filling = u64::from(of.rows).div_ceil(PENDING_WRITES as u64);
        let mut writer = Writer::open(of.rows, VERSIONS, of.buckets, CLOCK - 2 * filling);
        writer.write_each(0..of.rows, |number, row| put(number, row, keys[row as usize]));
        Worked { writer, buckets: of.buckets.into(), keys }
    }

    fn key(&self, row: u32) -> u64 {
        self.keys[row as usize]
    }

    /// Four at once that do not meet: a tap that is given up, one that is published, an update of a row that keeps its key, and one of
    /// two rows that change their keys with each other.
    fn round(&mut self, random: &mut Random) {
        let [a, b, c, d, e, f, g] = self.rows_apart(random);
        let [tap, ended, kept, changed] = [(); 4].map(|()| self.writer.begin().expect("four are live"));
        let plans = [
            [self.reads(tap, &[a, b]), given_up(tap)].concat(),
            [self.reads(ended, &[c, d]), published(ended)].concat(),
            [self.reads(kept, &[e]), vec![put(kept, e, self.key(e))], published(kept)].concat(),
            [self.reads(changed, &[f, g]), vec![put(changed, f, self.key(g)), put(changed, g, self.key(f))], published(changed)]
                .concat(),
        ];
        self.keys.swap(f as usize, g as usize);
        in_turns(&mut self.writer, &plans);
    }

    /// Some of the rows, no two of which have keys of one bucket.
    fn rows_apart<const COUNT: usize>(&self, random: &mut Random) -> [u32; COUNT] {
        let bucket = |row: u32| self.key(row) % self.buckets;
        let mut rows = [0; COUNT];
        for count in 0..COUNT {
            rows[count] = loop {
                let row = random.below(self.keys.len() as u64) as u32;
                if rows[..count].iter().all(|&other| bucket(other) != bucket(row)) {
                    break row;
                }
            };
        }
        rows
    }

    fn reads(&self, number: u64, rows: &[u32]) -> Vec<Step> {
        rows.iter().flat_map(|&row| reading(number, self.key(row), ROWS)).collect()
    }
}

fn given_up(number: u64) -> Vec<Step> {
    vec![Step::Validate { number }, Step::Abort { number }]
}

fn published(number: u64) -> Vec<Step> {
    [&[Step::Validate { number }][..], &committing(number)].concat()
}

/// The first step of each, then the second of each, and so on.
fn in_turns(writer: &mut Writer, plans: &[Vec<Step>]) {
    for place in 0..plans.iter().map(Vec::len).max().unwrap_or(0) {
        for &step in plans.iter().filter_map(|plan| plan.get(place)) {
            writer.step(step).expect("no two of them meet");
        }
    }
}
