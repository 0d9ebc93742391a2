//! The usual work: taps, now and then an update that is published, updates that are given up.

use twin::limits::ROWS;
use twin::Step;

use crate::random::Random;
use crate::writer::{committing, reading, Writer};

/// Its store is one of 0.4, so that its figures stand beside those from then.
const ROWS_IN_USE: u64 = 64;
const KEYS: u64 = 32;
const BUCKETS: u32 = 64;
const VERSIONS: u32 = 1024;

/// So many steps of it, by four transactions at a time.
pub fn benchmark(steps: u64, random: &mut Random) -> Vec<u8> {
    with_live(4, steps, random)
}

/// What one of the live transactions does next, its last step first.
type Plan = (u64, Vec<Step>);

/// So many steps of it, by so many transactions at a time.
pub fn with_live(live: u64, steps: u64, random: &mut Random) -> Vec<u8> {
    let mut writer = Writer::open(ROWS_IN_USE as u32, VERSIONS, BUCKETS, 1);
    let mut done = 1;
    for row in 0..ROWS_IN_USE {
        writer.put_and_publish(row as u32, row % KEYS, 0);
        done += 6;
    }
    // the versions that are left are spread over the whole log
    let steps_for_an_update = (steps / (u64::from(VERSIONS) - ROWS_IN_USE)).max(1);
    let mut next_update = done;
    let mut plans: Vec<Plan> = Vec::new();
    while done < steps {
        done += 1;
        if (plans.len() as u64) < live && random.percent(50) || plans.is_empty() {
            let number = writer.begin().expect("fewer than eight are live and the clock is low");
            let publishes = done >= next_update;
            if publishes {
                next_update += steps_for_an_update;
            }
            plans.push((number, plan(number, publishes, random)));
            continue;
        }
        let chosen = random.below(plans.len() as u64) as usize;
        let (number, plan) = &mut plans[chosen];
        let step = plan.pop().unwrap_or(Step::Abort { number: *number });
        let ends = matches!(step, Step::Abort { .. } | Step::Publish { .. });
        let answer = writer.step(step);
        if ends && answer.is_ok() {
            plans.swap_remove(chosen);
        } else if answer.is_err() {
            // refused: it gives up with its next step
            plan.clear();
        }
    }
    writer.bytes
}

/// A tap or an update, its last step first.
fn plan(number: u64, publishes: bool, random: &mut Random) -> Vec<Step> {
    let row = random.below(ROWS_IN_USE) as u32;
    let key = u64::from(row) % KEYS;
    let mut steps = Vec::new();
    for read in 0..random.from_to(1, 4) {
        let key = if read == 0 { key } else { random.below(KEYS) };
        steps.extend(reading(number, key, ROWS));
    }
    let update = publishes || random.percent(20);
    if update {
        let new_key = if random.percent(10) { random.below(KEYS) } else { key };
        steps.push(Step::Put { number, row, key: new_key, payload: random.word() });
    }
    steps.push(Step::Validate { number });
    if publishes || (!update && random.percent(50)) {
        steps.extend(committing(number));
    } else if update {
        steps.extend([Step::Prepare { number }, Step::Abort { number }]);
    } else {
        steps.push(Step::Abort { number });
    }
    steps.reverse();
    steps
}
