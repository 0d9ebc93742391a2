//! Logs from a seed: mixed, contended, at every limit, damaged, noise; logs at each edge of the limits; and the logs that the bench measures.

mod chains;
mod damage;
mod edges;
mod limits;
mod posted;
mod random;
mod traffic;
mod work;
mod writer;

pub use chains::{longest_chain, with_chains, Chains};
pub use edges::{edges, Edge};
pub use posted::{with_posted, Posted, STEPS_OF_A_ROUND};
pub use random::Random;
pub use work::{benchmark, with_live};
pub use writer::append_record;

/// A log, and the byte from which on its steps count; those before only bring the store there.
pub struct Stretch {
    pub log: Vec<u8>,
    pub from: usize,
}

/// What a log is made to try.
#[derive(Clone, Copy, Debug, PartialEq, Eq, PartialOrd, Ord)]
pub enum Family {
    /// Many rows, keys and buckets.
    Mixed,
    /// Few rows and buckets, many live transactions.
    Contended,
    /// One of the limits of document 01 from both sides, or a read that others overtake.
    Limits,
    /// One of the above with bytes changed, cut, inserted, moved or doubled.
    Damaged,
    /// Bytes or records that mean nothing.
    Noise,
}

impl Family {
    pub const ALL: [Family; 5] = [Family::Mixed, Family::Contended, Family::Limits, Family::Damaged, Family::Noise];
}

/// A log of the family with about so many steps; a log at a limit is as long as it needs.
pub fn log(family: Family, steps: u64, random: &mut Random) -> Vec<u8> {
    match family {
        Family::Mixed => traffic::mixed(steps, random),
        Family::Contended => traffic::contended(steps, random),
        Family::Limits => limits::at_a_limit(steps, random),
        Family::Damaged => {
            let whole = random.one_of(&[Family::Mixed, Family::Contended, Family::Limits]);
            let mut bytes = log(whole, steps, random);
            damage::damage(&mut bytes, random);
            bytes
        }
        Family::Noise => damage::noise(steps, random),
    }
}

/// A room for the report: plenty mostly, else anything up to a little more than the report takes.
pub fn room(report_length: usize, random: &mut Random) -> usize {
    if random.percent(70) {
        report_length + random.below(64) as usize
    } else {
        random.below(report_length as u64 + 2) as usize
    }
}
