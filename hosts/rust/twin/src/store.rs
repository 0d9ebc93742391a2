//! The store and its steps.

use std::collections::{BTreeMap, BTreeSet};

use crate::limits;
use crate::records::Step;

mod contents;

pub use contents::Content;

/// A refusal number of document 01.
pub type Refusal = u32;

/// What a step answers: its values, or the number that refuses it.
pub type Answer = Result<Values, Refusal>;

/// What stands after the 0 of an accepted step.
#[derive(Clone, Debug, PartialEq, Eq)]
pub enum Values {
    Nothing,
    Number(u64),
    Stamp(u64),
    Count(usize),
    Rows(Vec<u32>),
    Verdict(Verdict),
}

#[derive(Clone, Copy, Debug, PartialEq, Eq)]
pub enum Verdict {
    Clear,
    Stamp { bucket: usize, captured: u64, present: u64 },
    Record { row: u32, pointer: usize },
    Marked,
}

#[derive(Clone, Copy, Debug, PartialEq, Eq)]
pub enum Phase {
    Open,
    Holding { bucket: usize, key: u64 },
    Collected { key: u64 },
    Prepared,
    Installed,
    Ended,
}

struct Version {
    xmin: u64,
    xmax: u64,
    next: usize,
    key: Option<u64>,
    payload: u64,
}

#[derive(Clone, Default)]
struct Row {
    head: usize,
    claim: u64,
}

#[derive(Clone, Default)]
struct Bucket {
    stamp: u64,
    holder: u64,
}

struct Snapshot {
    xmax: u64,
    active: Vec<u64>,
}

impl Snapshot {
    fn sees(&self, number: u64) -> bool {
        number < self.xmax && !self.active.contains(&number)
    }

    fn shows(&self, version: &Version) -> bool {
        self.sees(version.xmin) && (version.xmax == 0 || !self.sees(version.xmax))
    }
}

struct IndexRead {
    bucket: usize,
    stamp: u64,
}

struct ReadRecord {
    row: u32,
    pointer: usize,
    xmin: u64,
}

struct PendingWrite {
    row: u32,
    key: Option<u64>,
    payload: u64,
}

struct Transaction {
    number: u64,
    snapshot: Snapshot,
    phase: Phase,
    marked: bool,
    index_reads: Vec<IndexRead>,
    candidates: BTreeSet<u32>,
    read_records: Vec<ReadRecord>,
    pending: Vec<PendingWrite>,
}

impl Transaction {
    fn pending_rows(&self) -> BTreeSet<u32> {
        self.pending.iter().map(|write| write.row).collect()
    }

    fn last_write(&self, row: u32) -> Option<&PendingWrite> {
        self.pending.iter().rev().find(|write| write.row == row)
    }

    /// The key that a pending row is to have, none where it is to be erased.
    fn new_key(&self, row: u32) -> Option<u64> {
        self.last_write(row).and_then(|write| write.key)
    }

    fn has_recorded(&self, pointer: usize) -> bool {
        self.read_records.iter().any(|record| record.pointer == pointer)
    }
}

/// One store with its live transactions.
pub struct Store {
    clock: u64,
    rows: Vec<Row>,
    /// The version of pointer p stands at p - 1.
    versions: Vec<Version>,
    version_limit: usize,
    buckets: Vec<Bucket>,
    postings: BTreeSet<(u64, u32)>,
    transactions: BTreeMap<u64, Transaction>,
}

impl Store {
    /// A fresh store, or refusal 1.
    pub fn open(rows: u32, versions: u32, buckets: u32, clock: u64) -> Result<Store, Refusal> {
        let sizes = [(rows, limits::ROWS), (versions, limits::VERSIONS), (buckets, limits::BUCKETS)];
        if clock == 0 || !sizes.iter().all(|(size, most)| (1..=*most).contains(size)) {
            return Err(1);
        }
        Ok(Store {
            clock,
            rows: vec![Row::default(); rows as usize],
            versions: Vec::new(),
            version_limit: versions as usize,
            buckets: vec![Bucket::default(); buckets as usize],
            postings: BTreeSet::new(),
            transactions: BTreeMap::new(),
        })
    }

    /// Carries out one step; the store is open already, so a second open is refused with 15.
    pub fn step(&mut self, step: &Step) -> Answer {
        match *step {
            Step::Open { .. } => Err(15),
            Step::Begin => self.begin(),
            Step::Capture { number, key } => self.capture(number, key),
            Step::Collect { number } => self.collect(number),
            Step::Rows { number, room } => self.rows(number, room),
            Step::Put { number, row, key, payload } => self.write(number, PendingWrite { row, key: Some(key), payload }),
            Step::Erase { number, row } => self.write(number, PendingWrite { row, key: None, payload: 0 }),
            Step::Prepare { number } => self.prepare(number),
            Step::Install { number } => self.install(number),
            Step::End { number } => self.end(number),
            Step::Publish { number } => self.publish(number),
            Step::Validate { number } => self.validate(number),
            Step::Abort { number } => self.abort(number),
        }
    }

    /// The live transactions by number, with their phases.
    pub fn live(&self) -> impl Iterator<Item = (u64, Phase)> + '_ {
        self.transactions.values().map(|transaction| (transaction.number, transaction.phase))
    }

    fn snapshot_now(&self) -> Snapshot {
        let active = self.transactions.values().filter(|other| other.phase != Phase::Ended).map(|other| other.number).collect();
        Snapshot { xmax: self.clock, active }
    }

    fn version(&self, pointer: usize) -> Option<&Version> {
        self.versions.get(pointer.checked_sub(1)?)
    }

    /// The key of a live row: one whose head version is there and not erased.
    fn live_key(&self, row: u32) -> Option<u64> {
        self.version(self.rows[row as usize].head).and_then(|head| head.key)
    }

    fn bucket_of(&self, key: u64) -> usize {
        (key % self.buckets.len() as u64) as usize
    }

    /// The transaction of this number in a phase that the step is for, or refusal 4 or 5.
    fn transaction(&self, number: u64, fits: fn(Phase) -> bool) -> Result<&Transaction, Refusal> {
        let transaction = self.transactions.get(&number).ok_or(4u32)?;
        if fits(transaction.phase) {
            Ok(transaction)
        } else {
            Err(5)
        }
    }

    fn change(&mut self, number: u64) -> &mut Transaction {
        self.transactions.get_mut(&number).expect("the step found it live")
    }

    fn begin(&mut self) -> Answer {
        let live = self.transactions.len();
        if live >= limits::LIVE {
            return Err(3);
        }
        if self.clock as u128 + live as u128 + 2 > u64::MAX as u128 {
            return Err(2);
        }
        let number = self.clock;
        self.clock += 1;
        let transaction = Transaction {
            number,
            snapshot: self.snapshot_now(),
            phase: Phase::Open,
            marked: false,
            index_reads: Vec::new(),
            candidates: BTreeSet::new(),
            read_records: Vec::new(),
            pending: Vec::new(),
        };
        self.transactions.insert(number, transaction);
        Ok(Values::Number(number))
    }

    fn capture(&mut self, number: u64, key: u64) -> Answer {
        let transaction = self.transaction(number, is_open)?;
        if transaction.marked {
            return Err(8);
        }
        let bucket = self.bucket_of(key);
        if self.held_by_another(bucket, number) {
            return Err(7);
        }
        let stamp = self.buckets[bucket].stamp;
        if stamp >= number {
            self.change(number).marked = true;
            return Err(8);
        }
        let captured = transaction.index_reads.iter().any(|read| read.bucket == bucket);
        if !captured && transaction.index_reads.len() == limits::INDEX_READS {
            return Err(9);
        }
        self.buckets[bucket].holder = number;
        let transaction = self.change(number);
        if !captured {
            transaction.index_reads.push(IndexRead { bucket, stamp });
        }
        transaction.phase = Phase::Holding { bucket, key };
        Ok(Values::Stamp(stamp))
    }

    fn collect(&mut self, number: u64) -> Answer {
        let transaction = self.transaction(number, |phase| matches!(phase, Phase::Holding { .. }))?;
        let Phase::Holding { bucket, key } = transaction.phase else { unreachable!("it is Holding") };
        let candidates: BTreeSet<u32> = self.postings.range((key, 0)..=(key, u32::MAX)).map(|&(_, row)| row).collect();
        let count = candidates.len();
        self.buckets[bucket].holder = 0;
        let transaction = self.change(number);
        transaction.candidates = candidates;
        transaction.phase = Phase::Collected { key };
        Ok(Values::Count(count))
    }

    fn rows(&mut self, number: u64, room: u32) -> Answer {
        let transaction = self.transaction(number, |phase| matches!(phase, Phase::Collected { .. }))?;
        let Phase::Collected { key } = transaction.phase else { unreachable!("it is Collected") };
        let mut matches = Vec::new();
        let mut new_records = Vec::new();
        for row in &transaction.candidates | &transaction.pending_rows() {
            if let Some(write) = transaction.last_write(row) {
                if write.key == Some(key) {
                    matches.push(row);
                }
            } else if let Some((pointer, version)) = self.first_visible(&transaction.snapshot, row) {
                if version.key == Some(key) {
                    matches.push(row);
                    if !transaction.has_recorded(pointer) {
                        new_records.push(ReadRecord { row, pointer, xmin: version.xmin });
                    }
                }
            }
        }
        if matches.len() > room.min(limits::ROWS) as usize {
            return Err(10);
        }
        if transaction.read_records.len() + new_records.len() > limits::READ_RECORDS {
            return Err(11);
        }
        let transaction = self.change(number);
        transaction.read_records.append(&mut new_records);
        transaction.candidates.clear();
        transaction.phase = Phase::Open;
        Ok(Values::Rows(matches))
    }

    fn first_visible(&self, snapshot: &Snapshot, row: u32) -> Option<(usize, &Version)> {
        let mut pointer = self.rows[row as usize].head;
        while let Some(version) = self.version(pointer) {
            if snapshot.shows(version) {
                return Some((pointer, version));
            }
            pointer = version.next;
        }
        None
    }

    fn write(&mut self, number: u64, write: PendingWrite) -> Answer {
        let transaction = self.transaction(number, is_open)?;
        if transaction.marked {
            return Err(8);
        }
        if write.row as usize >= self.rows.len() {
            return Err(6);
        }
        if transaction.pending.len() == limits::PENDING_WRITES {
            return Err(12);
        }
        self.change(number).pending.push(write);
        Ok(Values::Nothing)
    }

    fn validate(&mut self, number: u64) -> Answer {
        let transaction = self.transaction(number, is_open)?;
        if transaction.index_reads.iter().any(|read| self.held_by_another(read.bucket, number)) {
            return Err(7);
        }
        Ok(Values::Verdict(self.verdict(transaction)))
    }

    fn verdict(&self, transaction: &Transaction) -> Verdict {
        if transaction.marked {
            return Verdict::Marked;
        }
        for read in &transaction.index_reads {
            let present = self.buckets[read.bucket].stamp;
            if present != read.stamp || present >= transaction.number {
                return Verdict::Stamp { bucket: read.bucket, captured: read.stamp, present };
            }
        }
        for record in &transaction.read_records {
            let version = self.version(record.pointer).expect("a recorded pointer is in use");
            let xmax = version.xmax;
            let ended_unseen = xmax >= transaction.snapshot.xmax || transaction.snapshot.active.contains(&xmax);
            if version.xmin != record.xmin || (xmax != 0 && xmax != transaction.number && ended_unseen) {
                return Verdict::Record { row: record.row, pointer: record.pointer };
            }
        }
        Verdict::Clear
    }

    fn prepare(&mut self, number: u64) -> Answer {
        let transaction = self.transaction(number, is_open)?;
        let rows = transaction.pending_rows();
        let mut buckets: BTreeSet<usize> = transaction.index_reads.iter().map(|read| read.bucket).collect();
        for &row in &rows {
            let keys = self.live_key(row).into_iter().chain(transaction.new_key(row));
            buckets.extend(keys.map(|key| self.bucket_of(key)));
        }
        let bucket_taken = buckets.iter().any(|&bucket| self.held_by_another(bucket, number));
        let row_taken = rows.iter().any(|&row| ![0, number].contains(&self.rows[row as usize].claim));
        if bucket_taken || row_taken {
            return Err(7);
        }
        if self.verdict(transaction) != Verdict::Clear {
            return Err(14);
        }
        let others = self.transactions.values().filter(|other| other.number != number && other.phase == Phase::Prepared);
        let reserved: usize = others.map(|other| self.rows_with_version(other).len()).sum();
        let needed = self.rows_with_version(transaction).len();
        if self.versions.len() + reserved + needed > self.version_limit {
            return Err(13);
        }
        for bucket in buckets {
            self.buckets[bucket].holder = number;
        }
        for row in rows {
            self.rows[row as usize].claim = number;
        }
        self.change(number).phase = Phase::Prepared;
        Ok(Values::Nothing)
    }

    /// The pending rows that get a version: all but those that are not live and are to be erased.
    fn rows_with_version(&self, transaction: &Transaction) -> BTreeSet<u32> {
        let gets_version = |&row: &u32| self.live_key(row).is_some() || transaction.new_key(row).is_some();
        transaction.pending_rows().into_iter().filter(gets_version).collect()
    }

    fn install(&mut self, number: u64) -> Answer {
        let transaction = self.transaction(number, |phase| phase == Phase::Prepared)?;
        let mut installed = Vec::new();
        for row in self.rows_with_version(transaction) {
            let write = transaction.last_write(row).expect("a pending row has a write");
            let head = self.rows[row as usize].head;
            installed.push((row, Version { xmin: number, xmax: 0, next: head, key: write.key, payload: write.payload }));
        }
        for (row, version) in installed {
            if let Some(old) = version.next.checked_sub(1) {
                self.versions[old].xmax = number;
            }
            self.versions.push(version);
            self.rows[row as usize].head = self.versions.len();
        }
        self.change(number).phase = Phase::Installed;
        Ok(Values::Nothing)
    }

    fn end(&mut self, number: u64) -> Answer {
        self.transaction(number, |phase| phase == Phase::Installed)?;
        self.change(number).phase = Phase::Ended;
        Ok(Values::Nothing)
    }

    fn publish(&mut self, number: u64) -> Answer {
        let rows = self.transaction(number, |phase| phase == Phase::Ended)?.pending_rows();
        let stamp = self.clock;
        self.clock += 1;
        for row in rows {
            let head = self.version(self.rows[row as usize].head);
            // an erase of nothing got no version
            let Some(installed) = head.filter(|head| head.xmin == number) else { continue };
            let new = installed.key;
            let old = self.version(installed.next).and_then(|version| version.key);
            if old == new {
                continue;
            }
            for key in old.into_iter().chain(new) {
                let bucket = self.bucket_of(key);
                self.buckets[bucket].stamp = stamp;
            }
            if let Some(key) = old {
                self.postings.remove(&(key, row));
            }
            if let Some(key) = new {
                self.postings.insert((key, row));
            }
        }
        self.release(number);
        Ok(Values::Stamp(stamp))
    }

    fn abort(&mut self, number: u64) -> Answer {
        self.transaction(number, |phase| !matches!(phase, Phase::Installed | Phase::Ended))?;
        self.release(number);
        Ok(Values::Nothing)
    }

    fn held_by_another(&self, bucket: usize, number: u64) -> bool {
        ![0, number].contains(&self.buckets[bucket].holder)
    }

    /// Frees every bucket and row of the transaction and ends its record.
    fn release(&mut self, number: u64) {
        for bucket in &mut self.buckets {
            if bucket.holder == number {
                bucket.holder = 0;
            }
        }
        for row in &mut self.rows {
            if row.claim == number {
                row.claim = 0;
            }
        }
        self.transactions.remove(&number);
    }
}

fn is_open(phase: Phase) -> bool {
    phase == Phase::Open
}
