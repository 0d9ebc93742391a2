//! Several that are timed in turns.

use std::time::Duration;

/// The median time of each, which all have their turn in every round.
pub fn in_turns<T: Copy, const COUNT: usize>(
    all: [T; COUNT],
    rounds: usize,
    mut time: impl FnMut(T) -> Duration,
) -> [Duration; COUNT] {
    let mut times = all.map(|_| Vec::new());
    for _ in 0..rounds {
        for (one, times) in all.into_iter().zip(&mut times) {
            times.push(time(one));
        }
    }
    times.map(|mut times| {
        times.sort();
        times[times.len() / 2]
    })
}
