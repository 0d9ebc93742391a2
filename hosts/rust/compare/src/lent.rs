//! The engine over lent tables beside the twin.

use engine::{LentDriver, Replayed, Tables};
use generator::Random;
use twin::Words;

use crate::{compared, written, Difference};

/// Tables of these lengths for a log. Where it opens no store in them nothing may be changed, and else what the store needs.
pub fn tables(log: &[u8], lengths: Words, seed: u64) -> Tables {
    let fits = |needed: &Words| needed.iter().zip(lengths).all(|(&needed, length)| needed <= length);
    Tables { lengths, changeable: twin::words_of(log).filter(fits).unwrap_or_default(), seed }
}

/// Just as long as the store needs that the log opens; empty where it opens none.
pub fn exact(log: &[u8]) -> Words {
    twin::words_of(log).unwrap_or_default()
}

/// Just as long, one word too short in one of them, or longer.
pub fn some_lengths(log: &[u8], random: &mut Random) -> Words {
    let mut lengths = exact(log);
    match random.below(4) {
        0 => {
            let table = random.below(4) as usize;
            lengths[table] = lengths[table].saturating_sub(1);
            lengths
        }
        1 => lengths.map(|length| length + random.below(64) as usize),
        _ => lengths,
    }
}

/// As [`compare`](crate::compare), over tables of these lengths.
pub fn compare_lent(driver: &mut LentDriver, log: &[u8], room: usize, lengths: Words) -> Result<Replayed, Box<Difference>> {
    // other words stand in the tables of another log
    let seed = log.len() as u64 ^ (room as u64) << 32;
    compared(log, room, |log| (driver.replay(log, room, &tables(log, lengths, seed)), twin_lent(log, room, &lengths)))
}

/// What the twin answers and writes.
pub fn twin_lent(log: &[u8], room: usize, lengths: &Words) -> (u64, Vec<u8>) {
    written(room, |report| twin::replay_lent(log, report, lengths))
}
