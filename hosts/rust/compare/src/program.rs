//! What the programs have in common: the two numbers they are asked with, their logs, and a word on how far they are.

use std::fmt;
use std::time::{Duration, Instant, SystemTime, UNIX_EPOCH};

use generator::{log, Family, Random};

const LONGEST: u64 = 2000;
const BETWEEN_LINES: Duration = Duration::from_secs(10);

/// How much, and the seed, where the arguments are such.
pub fn asked() -> Option<(u64, u64)> {
    let mut numbers = std::env::args().skip(1).map(|argument| argument.parse::<u64>().ok());
    let count = numbers.next()??;
    let by_time = || SystemTime::now().duration_since(UNIX_EPOCH).map_or(0, |time| time.as_secs());
    let seed = numbers.next().unwrap_or_else(|| Some(by_time()))?;
    numbers.next().is_none().then_some((count, seed))
}

/// A log of any family.
pub fn random_log(random: &mut Random) -> Vec<u8> {
    let family = random.one_of(&Family::ALL);
    // as many short logs as long ones: a long one rarely ends in an edge
    let length = random.one_of(&[20, 60, 200, LONGEST]);
    log(family, length, random)
}

/// Says every few seconds how far it is.
pub struct Progress {
    said: Instant,
}

impl Progress {
    pub fn start() -> Progress {
        Progress { said: Instant::now() }
    }

    pub fn say(&mut self, words: fmt::Arguments) {
        if self.said.elapsed() >= BETWEEN_LINES {
            println!("{words}");
            self.said = Instant::now();
        }
    }
}
