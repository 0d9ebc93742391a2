//! Logs that walk up to a limit of document 01 and past it, or whose reads others overtake.

use twin::limits::{BUCKETS, PENDING_WRITES, READ_RECORDS, ROWS, VERSIONS};
use twin::Step;

use crate::random::Random;
use crate::traffic::Traffic;
use crate::writer::{committing, put, Writer};

/// One case, chosen at random, and then some traffic.
pub fn at_a_limit(steps: u64, random: &mut Random) -> Vec<u8> {
    // a full table takes thousands of steps
    if random.percent(1) {
        return all_versions(random).bytes;
    }
    let limit = random.one_of::<fn(&mut Random) -> Writer>(&[
        live,
        index_reads,
        read_records,
        pending_writes,
        versions,
        erases,
        clock,
        room,
        rows_out_of_range,
        old_snapshot,
        overtaken,
        marked,
        begun_between,
        sizes,
    ]);
    let mut writer = limit(random);
    let traffic = Traffic { rows: random.from_to(1, 8), keys: random.from_to(1, 8), apart: 1, live: random.from_to(1, 8) };
    let tail = random.below(steps / 2 + 1);
    traffic.go(&mut writer, tail, random);
    writer.bytes
}

/// Ordinary sizes, so that only the limit in question is met.
fn ample(random: &mut Random) -> Writer {
    let buckets = random.from_to(24, 64) as u32;
    Writer::open(ROWS, VERSIONS, buckets, random.from_to(1, 9))
}

/// Eight live transactions, in whatever phase, and more begins.
fn live(random: &mut Random) -> Writer {
    let mut writer = ample(random);
    for round in 0..random.from_to(7, 12) {
        if let Some(number) = writer.begin() {
            if random.percent(40) {
                let _ = writer.step(put(number, round as u32, round));
            }
            if random.percent(40) {
                let taken = random.from_to(1, 3) as usize;
                writer.steps(&committing(number)[..taken]);
            }
        }
    }
    writer
}

/// Sixteen buckets read, the seventeenth, and one of the sixteen again.
fn index_reads(random: &mut Random) -> Writer {
    let mut writer = ample(random);
    let Some(number) = writer.begin() else { return writer };
    if random.percent(30) {
        writer.put_and_publish(0, 16, 0);
    }
    for key in 0..random.from_to(15, 18) {
        writer.read(number, key, ROWS);
    }
    if random.percent(50) {
        if let Some(other) = writer.begin() {
            let _ = writer.step(Step::Capture { number: other, key: random.from_to(14, 18) });
        }
    }
    writer.read(number, random.from_to(14, 18), ROWS);
    writer.read(number, random.below(16), ROWS);
    let _ = writer.step(Step::Validate { number });
    writer
}

/// About 128 versions of one to three keys, read with some of the rows pending.
fn read_records(random: &mut Random) -> Writer {
    const MOST: u32 = READ_RECORDS as u32;
    let mut writer = ample(random);
    let keys = random.from_to(1, 3);
    let count = random.one_of(&[MOST - 1, MOST, MOST + 1, MOST + PENDING_WRITES as u32]);
    let first = random.below(u64::from(ROWS - count)) as u32;
    writer.write_each(first..first + count, |number, row| put(number, row, u64::from(row) % keys));
    let Some(number) = writer.begin() else { return writer };
    for _ in 0..random.one_of(&[0, 0, 1, PENDING_WRITES]) {
        let pending = first + random.below(count.into()) as u32;
        let _ = writer.step(match random.percent(50) {
            true => put(number, pending, random.below(keys)),
            false => Step::Erase { number, row: pending },
        });
    }
    for key in (0..keys).chain(0..keys) {
        writer.read(number, key, random.one_of(&[ROWS, ROWS, MOST, MOST - 1]));
    }
    let _ = writer.step(Step::Validate { number });
    writer.commit(number);
    writer
}

/// Sixteen pending writes and more.
fn pending_writes(random: &mut Random) -> Writer {
    let mut writer = ample(random);
    let Some(number) = writer.begin() else { return writer };
    let rows = random.from_to(1, 20);
    for _ in 0..random.from_to(15, 19) {
        let row = random.below(rows) as u32;
        let _ = writer.step(match random.percent(70) {
            true => Step::Put { number, row, key: random.below(9), payload: 1 },
            false => Step::Erase { number, row },
        });
    }
    writer.read(number, random.below(9), ROWS);
    writer.commit(number);
    writer
}

/// A few versions in all, shared by writers that reserve them at the same time.
fn versions(random: &mut Random) -> Writer {
    let limit = random.from_to(1, 12);
    let mut writer = Writer::open(16, limit as u32, 64, 1);
    for _ in 0..limit + 2 {
        let Some(number) = writer.begin() else { break };
        let first = random.below(12) as u32;
        for row in first..first + random.from_to(1, 3) as u32 {
            let _ = writer.step(put(number, row, u64::from(row)));
        }
        if random.percent(50) {
            writer.commit(number);
        } else {
            let _ = writer.step(Step::Prepare { number });
        }
    }
    writer
}

/// Every version of the largest table but for a few, and writers that want those and more at the same time.
fn all_versions(random: &mut Random) -> Writer {
    let mut writer = ample(random);
    let left = random.below(PENDING_WRITES as u64) as u32;
    writer.use_versions(VERSIONS - left);
    for _ in 0..4 {
        let Some(number) = writer.begin() else { break };
        let first = random.below(u64::from(ROWS - left)) as u32;
        for row in first..first + random.from_to(1, u64::from(left) + 1) as u32 {
            let _ = writer.step(put(number, row, u64::from(row)));
        }
        let _ = writer.step(Step::Prepare { number });
    }
    writer
}

/// Erases of erased, live and empty rows beside puts, with few versions left, so that it shows which of these rows get one.
fn erases(random: &mut Random) -> Writer {
    let erased = random.below(4) as u32;
    let live = erased + random.below(4) as u32;
    let mut writer = Writer::open(8, live + erased + random.from_to(1, 2) as u32, 64, 1);
    let early = writer.begin();
    writer.write_each(0..live, |number, row| put(number, row, u64::from(row)));
    writer.write_each(0..erased, |number, row| Step::Erase { number, row });
    for _ in 0..random.from_to(5, 7) {
        let Some(number) = writer.begin() else { break };
        for _ in 0..random.from_to(1, 3) {
            put_or_erase(&mut writer, number, random);
        }
        let taken = random.one_of(&[4, 4, 3, 1, 1, 1]);
        writer.steps(&committing(number)[..taken]);
    }
    // a bucket that was stamped is stale for the one that began first
    for number in early.into_iter().chain(writer.begin()) {
        for _ in 0..random.from_to(1, 3) {
            writer.read(number, random.below(4), ROWS);
        }
        let _ = writer.step(Step::Validate { number });
    }
    writer
}

/// One or two writes of one row, whose key is mostly its own.
fn put_or_erase(writer: &mut Writer, number: u64, random: &mut Random) {
    let row = random.below(6) as u32;
    let key = if random.percent(80) { u64::from(row) } else { random.below(6) };
    for _ in 0..random.from_to(1, 2) {
        let _ = writer.step(random.one_of(&[put(number, row, key), Step::Erase { number, row }]));
    }
}

/// A clock whose numbers run out, also where eight are live just then.
fn clock(random: &mut Random) -> Writer {
    let mut writer = Writer::open(4, 64, 4, u64::MAX - random.below(20));
    for _ in 0..random.one_of(&[0, 7, 9]) {
        let _ = writer.begin();
    }
    for round in 0..random.from_to(4, 16) {
        match writer.begin() {
            Some(number) if random.percent(60) => {
                let _ = writer.step(put(number, round as u32 % 4, round));
                writer.commit(number);
            }
            Some(number) if random.percent(50) => {
                let _ = writer.step(Step::Abort { number });
            }
            _ => {}
        }
    }
    writer
}

/// Rooms round the number of matches, and round that of all rows.
fn room(random: &mut Random) -> Writer {
    let mut writer = ample(random);
    let matches = random.one_of(&[0, 1, 2, 3, 15, 16, 17, 48, READ_RECORDS as u32]);
    writer.write_each(0..matches, |number, row| put(number, row, 5));
    let Some(number) = writer.begin() else { return writer };
    for _ in 0..3 {
        let _ = writer.step(Step::Capture { number, key: 5 });
        let _ = writer.step(Step::Collect { number });
        for room in [0, 1, matches.saturating_sub(1), matches, ROWS, ROWS + 1, u32::MAX] {
            if random.percent(40) {
                let _ = writer.step(Step::Rows { number, room });
            }
        }
    }
    writer
}

/// Rows at the count and past it.
fn rows_out_of_range(random: &mut Random) -> Writer {
    let rows = random.one_of(&[1, 2, ROWS - 1, ROWS]);
    let mut writer = Writer::open(rows, 64, 8, 1);
    let Some(number) = writer.begin() else { return writer };
    for row in [0, rows - 1, rows, rows + 1, u32::MAX, rows - 1] {
        let _ = writer.step(put(number, row, 1));
        let _ = writer.step(Step::Erase { number, row: row ^ random.below(2) as u32 });
    }
    writer.read(number, 1, ROWS);
    writer.commit(number);
    writer
}

/// Rows rewritten under a snapshot that keeps reading the old versions.
fn old_snapshot(random: &mut Random) -> Writer {
    let mut writer = ample(random);
    let keys = random.from_to(1, 2);
    for row in 0..3 {
        writer.put_and_publish(row, u64::from(row) % keys, 0);
    }
    let Some(old) = writer.begin() else { return writer };
    if random.percent(50) {
        writer.read(old, 0, ROWS);
    }
    for round in 0..random.from_to(1, 24) {
        let row = random.below(3);
        // the same key again leaves the stamps, another makes the old snapshot stale
        let key = if random.percent(95) { row % keys } else { random.below(keys) };
        writer.put_and_publish(row as u32, key, round);
    }
    for key in 0..keys {
        writer.read(old, key, ROWS);
    }
    let _ = writer.step(Step::Validate { number: old });
    if random.percent(30) {
        let _ = writer.step(Step::Put { number: old, row: 0, key: 0, payload: 7 });
    }
    writer.commit(old);
    writer
}

/// A reader whose buckets and rows others change before it validates.
fn overtaken(random: &mut Random) -> Writer {
    let mut writer = ample(random);
    let Some(loader) = writer.begin() else { return writer };
    for row in 0..4 {
        let _ = writer.step(put(loader, row, u64::from(row)));
    }
    writer.commit(loader);
    let Some(reader) = writer.begin() else { return writer };
    for _ in 0..random.from_to(1, 4) {
        writer.read(reader, random.below(4), ROWS);
    }
    for _ in 0..random.from_to(1, 3) {
        let row = random.below(4);
        let key = if random.percent(50) { row } else { random.below(4) };
        writer.put_and_publish(row as u32, key, 1);
        let _ = writer.step(Step::Validate { number: reader });
    }
    if random.percent(30) {
        writer.read(reader, random.below(4), ROWS);
    }
    let _ = writer.step(Step::Validate { number: reader });
    writer.commit(reader);
    writer
}

/// A stale stamp marks a transaction that may have all its writes pending; behind that it goes on writing, in range and out of it.
fn marked(random: &mut Random) -> Writer {
    let mut writer = ample(random);
    let Some(number) = writer.begin() else { return writer };
    for _ in 0..random.one_of(&[0, 1, 15, 16]) {
        let _ = writer.step(put(number, random.below(4) as u32, random.below(9)));
    }
    if random.percent(50) {
        writer.read(number, 2, ROWS);
    }
    writer.put_and_publish(0, 1, 0);
    let _ = writer.step(Step::Capture { number, key: 1 });
    if random.percent(50) {
        // validate and prepare need the bucket that was read
        if let Some(other) = writer.begin() {
            let _ = writer.step(Step::Capture { number: other, key: 2 });
        }
    }
    for _ in 0..random.from_to(2, 9) {
        let row = random.one_of(&[0, ROWS - 1, ROWS, u32::MAX]);
        let key = random.from_to(1, 3);
        let _ = writer.step(random.one_of(&[
            Step::Put { number, row, key, payload: 1 },
            Step::Put { number, row, key, payload: 1 },
            Step::Erase { number, row },
            Step::Erase { number, row },
            Step::Capture { number, key },
            Step::Validate { number },
            Step::Prepare { number },
        ]));
    }
    if random.percent(50) {
        let _ = writer.step(Step::Abort { number });
        let _ = writer.step(Step::Put { number, row: 0, key: 1, payload: 1 });
    }
    writer
}

/// A reader that begins while a writer is in one of its last phases and reads once it has published.
fn begun_between(random: &mut Random) -> Writer {
    let mut writer = ample(random);
    writer.put_and_publish(0, 0, 0);
    let Some(number) = writer.begin() else { return writer };
    // the same key leaves the stamps, so that the reader is not stale
    let _ = writer.step(Step::Put { number, row: 0, key: 0, payload: 1 });
    let last = committing(number);
    let before = random.below(5) as usize;
    writer.steps(&last[..before]);
    let reader = writer.begin();
    writer.steps(&last[before..]);
    if let Some(reader) = reader {
        writer.read(reader, 0, ROWS);
        let _ = writer.step(Step::Validate { number: reader });
        writer.commit(reader);
    }
    writer
}

/// An open at the edges of its sizes.
fn sizes(random: &mut Random) -> Writer {
    let [rows, versions, buckets] =
        [ROWS, VERSIONS, BUCKETS].map(|most| random.one_of(&[1, most, 1, most, 0, most + 1, u32::MAX]));
    let clock = random.one_of(&[1, 1, 1, 2, 0, u64::MAX]);
    Writer::open(rows, versions, buckets, clock)
}
