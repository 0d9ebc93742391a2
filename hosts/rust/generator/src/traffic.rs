//! Transactions that come and go at random, most steps in their right phase.

use twin::limits::{BUCKETS, ROWS, VERSIONS};
use twin::{Phase, Step};

use crate::random::Random;
use crate::writer::Writer;

/// How a stretch of traffic draws its fields.
pub struct Traffic {
    pub rows: u64,
    pub keys: u64,
    /// From one key to the next.
    pub apart: u64,
    /// As many transactions as it tries to keep live.
    pub live: u64,
}

pub fn mixed(steps: u64, random: &mut Random) -> Vec<u8> {
    // small stores mostly, so that transactions meet
    let mut size =
        |small: u64, most: u32| if random.percent(75) { random.from_to(1, small) } else { random.from_to(1, most.into()) };
    let [rows, versions, buckets] = [size(48, ROWS), size(1024, VERSIONS), size(32, BUCKETS)];
    let clock = if random.percent(80) { random.from_to(1, 100) } else { random.word() / 2 + 1 };
    let mut writer = Writer::open(rows as u32, versions as u32, buckets as u32, clock);
    // keys that are far apart fall into high buckets too
    let apart = random.one_of(&[1, 1, 97, u64::MAX / 40]);
    let traffic = Traffic { rows, keys: random.from_to(1, 40), apart, live: random.from_to(1, 8) };
    traffic.go(&mut writer, steps, random);
    writer.bytes
}

pub fn contended(steps: u64, random: &mut Random) -> Vec<u8> {
    let rows = random.from_to(1, 4);
    let buckets = random.from_to(1, 3);
    let mut writer = Writer::open(rows as u32, VERSIONS, buckets as u32, random.from_to(1, 9));
    let traffic = Traffic { rows, keys: random.from_to(1, 5), apart: 1, live: random.from_to(4, 9) };
    traffic.go(&mut writer, steps, random);
    writer.bytes
}

impl Traffic {
    pub fn go(&self, writer: &mut Writer, steps: u64, random: &mut Random) {
        for _ in 0..steps {
            let step = self.next(writer, random);
            let _ = writer.step(step);
        }
    }

    fn next(&self, writer: &Writer, random: &mut Random) -> Step {
        let live = writer.live();
        if random.percent(3) {
            let number = if live.is_empty() || random.percent(40) { random.below(40) } else { random.one_of(&live).0 };
            return self.any(number, random);
        }
        let missing = self.live.saturating_sub(live.len() as u64);
        if live.is_empty() || random.below(self.live + 1) < missing {
            return Step::Begin;
        }
        let (number, phase) = random.one_of(&live);
        self.fitting(number, phase, random)
    }

    /// A step that the phase is for, or an abort.
    fn fitting(&self, number: u64, phase: Phase, random: &mut Random) -> Step {
        let put = self.put(number, random);
        let erase = Step::Erase { number, row: random.below(self.rows) as u32 };
        let capture = Step::Capture { number, key: self.key(random) };
        let abort = Step::Abort { number };
        match phase {
            Phase::Open => random.weighed(&[
                (30, capture),
                (24, put),
                (8, erase),
                (10, Step::Validate { number }),
                (22, Step::Prepare { number }),
                (3, abort),
            ]),
            Phase::Holding { .. } => random.weighed(&[(96, Step::Collect { number }), (4, abort)]),
            Phase::Collected { .. } => {
                let room = if random.percent(85) { ROWS } else { random.below(4) as u32 };
                random.weighed(&[(96, Step::Rows { number, room }), (4, abort)])
            }
            Phase::Prepared => random.weighed(&[(92, Step::Install { number }), (8, abort)]),
            Phase::Installed => Step::End { number },
            Phase::Ended => Step::Publish { number },
        }
    }

    /// Any step of the transaction, whatever its phase.
    pub fn any(&self, number: u64, random: &mut Random) -> Step {
        let put = self.put(number, random);
        let row = random.below(self.rows + 2) as u32;
        let key = self.key(random);
        let room = random.below(4) as u32;
        random.one_of(&[
            Step::Begin,
            Step::Capture { number, key },
            Step::Collect { number },
            Step::Rows { number, room },
            put,
            Step::Erase { number, row },
            Step::Prepare { number },
            Step::Install { number },
            Step::End { number },
            Step::Publish { number },
            Step::Validate { number },
            Step::Abort { number },
        ])
    }

    fn put(&self, number: u64, random: &mut Random) -> Step {
        Step::Put { number, row: random.below(self.rows) as u32, key: self.key(random), payload: random.word() }
    }

    fn key(&self, random: &mut Random) -> u64 {
        random.below(self.keys) * self.apart
    }
}
