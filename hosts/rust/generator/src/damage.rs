//! Logs that are no longer what they were, and logs that never were.

use twin::Step;

use crate::random::Random;
use crate::traffic::Traffic;
use crate::writer::append_record;

/// One to four changes of the bytes.
pub fn damage(bytes: &mut Vec<u8>, random: &mut Random) {
    for _ in 0..random.from_to(1, 4) {
        let place = |random: &mut Random, length: usize| random.below(length as u64 + 1) as usize;
        let length = bytes.len();
        match random.below(6) {
            0 if length > 0 => bytes[random.below(length as u64) as usize] ^= 1 << random.below(8),
            1 => bytes.truncate(place(random, length)),
            2 => bytes.insert(place(random, length), random.word() as u8),
            3 if length > 0 => {
                bytes.remove(random.below(length as u64) as usize);
            }
            4 => {
                let from = place(random, length);
                let to = (from + random.below(64) as usize).min(length);
                let copy = bytes[from..to].to_vec();
                bytes.splice(to..to, copy);
            }
            _ => {
                let from = place(random, length);
                let to = (from + random.below(64) as usize).min(length);
                bytes[from..to].reverse();
            }
        }
    }
}

/// Bytes, bytes after an open, or whole records with fields that fit nothing.
pub fn noise(steps: u64, random: &mut Random) -> Vec<u8> {
    let mut bytes = Vec::new();
    let shape = random.below(3);
    if shape > 0 {
        append_record(&mut bytes, &Step::Open { rows: 16, versions: 64, buckets: 16, clock: 1 });
    }
    if shape < 2 {
        bytes.extend((0..random.below(steps * 4 + 1)).map(|_| random.word() as u8));
        return bytes;
    }
    let traffic = Traffic { rows: u64::from(u32::MAX) - 2, keys: u64::MAX, apart: 1, live: 8 };
    for _ in 0..steps {
        let number = if random.percent(80) { random.below(9) } else { random.word() };
        append_record(&mut bytes, &traffic.any(number, random));
    }
    bytes
}
