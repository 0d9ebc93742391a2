//! Erases of rows that are not live come often, where they must cost nothing and where it shows, and erases of live rows beside them.

use std::collections::{BTreeMap, BTreeSet};

use generator::{log, Family, Random};
use told::{told, OFTEN};
use twin::Step;

mod told;

const LOGS: u64 = 4000;
const STEPS: u64 = 60;

/// What a log can try of an erase; "of nothing" is one of a row that is not live.
#[derive(Clone, Copy, Debug, PartialEq, Eq, PartialOrd, Ord)]
enum Case {
    /// Installed: an erase of a row that never had a version, the same behind a put, of an erased row, of a live row.
    OfEmptyRow,
    BehindPut,
    OfErasedRow,
    OfLiveRow,
    /// Published: an erase of nothing beside a row that got a version.
    BesideVersion,
    /// Prepared with versions enough only because own erases of nothing need none, or because those of others reserve none.
    NoneNeeded,
    NoneReserved,
    /// Refused with 13 because of an own erase of a live row, or because of those of others.
    OneNeeded,
    OneReserved,
    /// Refused with 7 where an erase of nothing has claimed the row.
    Claimed,
    /// A capture of a key that is only put before an erase of nothing, while that is Prepared, Installed or Ended.
    NotHeld,
    /// A capture of the key of an erased row, behind a publish that erased it once more.
    NotStamped,
}

/// How many cases there are, and how often each came.
const CASES: usize = 12;
type Counts = BTreeMap<Case, u64>;

/// The cases of which it is so.
fn those(cases: &[(bool, Case)]) -> Vec<Case> {
    cases.iter().filter(|(so, _)| *so).map(|&(_, case)| case).collect()
}

/// A row is live while it has a key.
#[derive(Clone, Copy, Default)]
struct Row {
    key: Option<u64>,
    last_key: Option<u64>,
}

impl Row {
    fn write(&mut self, key: Option<u64>) {
        self.key = key;
        self.last_key = key.or(self.last_key);
    }
}

/// The pending rows of a transaction, as they are when it is prepared.
#[derive(Default)]
struct Split {
    /// Erased though they are not live, erased though they are, and put.
    nothing: BTreeSet<u32>,
    erased: BTreeSet<u32>,
    put: BTreeSet<u32>,
    installed: bool,
}

impl Split {
    fn needed(&self) -> usize {
        self.erased.len() + self.put.len()
    }
}

/// What the accepted steps of a log have led to.
#[derive(Default)]
struct Followed {
    limit: usize,
    used: usize,
    rows: BTreeMap<u32, Row>,
    writes: BTreeMap<u64, Vec<(u32, Option<u64>)>>,
    /// The Prepared, Installed and Ended ones.
    taken: BTreeMap<u64, Split>,
    not_stamped: BTreeSet<u64>,
}

impl Followed {
    fn row(&self, row: u32) -> Row {
        self.rows.get(&row).copied().unwrap_or_default()
    }

    fn writes(&self, number: u64) -> &[(u32, Option<u64>)] {
        self.writes.get(&number).map_or(&[], Vec::as_slice)
    }

    fn split(&self, number: u64) -> Split {
        let last: BTreeMap<u32, Option<u64>> = self.writes(number).iter().copied().collect();
        let mut split = Split::default();
        for (row, key) in last {
            let rows = match (key, self.row(row).key) {
                (Some(_), _) => &mut split.put,
                (None, Some(_)) => &mut split.erased,
                (None, None) => &mut split.nothing,
            };
            rows.insert(row);
        }
        split
    }

    fn reserved(&self, rows: fn(&Split) -> usize) -> usize {
        self.taken.values().filter(|split| !split.installed).map(rows).sum()
    }

    /// The keys that a transaction puts to rows of which it erases nothing in the end.
    fn put_in_vain(&self) -> impl Iterator<Item = u64> + '_ {
        let writes = self.taken.iter().flat_map(|(&number, split)| self.writes(number).iter().map(move |write| (split, write)));
        writes.filter(|(split, (row, _))| split.nothing.contains(row)).filter_map(|(_, (_, key))| *key)
    }

    /// The versions used, reserved by others and needed by this one.
    fn versions_for(&self, split: &Split) -> usize {
        self.used + self.reserved(Split::needed) + split.needed()
    }

    fn prepare(&mut self, number: u64) -> Vec<Case> {
        let split = self.split(number);
        let versions = self.versions_for(&split);
        assert!(versions <= self.limit, "a version for each row that gets one");
        let cases = those(&[
            (versions + split.nothing.len() > self.limit, Case::NoneNeeded),
            (versions + self.reserved(|split| split.nothing.len()) > self.limit, Case::NoneReserved),
        ]);
        self.taken.insert(number, split);
        cases
    }

    fn too_few_versions(&self, number: u64) -> Vec<Case> {
        let split = self.split(number);
        let versions = self.versions_for(&split);
        assert!(versions > self.limit, "13 only where there are too few");
        those(&[
            (versions - split.erased.len() <= self.limit, Case::OneNeeded),
            (versions - self.reserved(|split| split.erased.len()) <= self.limit, Case::OneReserved),
        ])
    }

    fn taken_by_another(&self, number: u64) -> Vec<Case> {
        let own: BTreeSet<u32> = self.writes(number).iter().map(|&(row, _)| row).collect();
        those(&[(self.taken.values().any(|other| !other.nothing.is_disjoint(&own)), Case::Claimed)])
    }

    fn install(&mut self, number: u64) -> Vec<Case> {
        let writes = self.writes(number).to_vec();
        let split = &self.taken[&number];
        let of_nothing = |&row: &u32| match self.row(row).last_key {
            Some(_) => Case::OfErasedRow,
            None if writes.iter().any(|&(other, key)| other == row && key.is_some()) => Case::BehindPut,
            None => Case::OfEmptyRow,
        };
        let mut cases: Vec<Case> = split.nothing.iter().map(of_nothing).collect();
        cases.extend(split.erased.iter().map(|_| Case::OfLiveRow));
        self.used += split.needed();
        let last: BTreeMap<u32, Option<u64>> = writes.into_iter().filter(|(row, _)| !split.nothing.contains(row)).collect();
        for (row, key) in last {
            self.rows.entry(row).or_default().write(key);
        }
        self.taken.entry(number).and_modify(|split| split.installed = true);
        cases
    }

    fn publish(&mut self, number: u64) -> Vec<Case> {
        let split = self.taken.remove(&number).expect("it was prepared");
        self.not_stamped.extend(split.nothing.iter().filter_map(|row| self.rows.get(row)?.last_key));
        those(&[(!split.nothing.is_empty() && split.needed() > 0, Case::BesideVersion)])
    }

    fn capture(&self, key: u64) -> Vec<Case> {
        those(&[
            (self.put_in_vain().any(|other| other == key), Case::NotHeld),
            (self.not_stamped.contains(&key), Case::NotStamped),
        ])
    }

    fn follow(&mut self, step: &Step, answer: u32) -> Vec<Case> {
        match (*step, answer) {
            (Step::Open { versions, .. }, 0) => self.limit = versions as usize,
            (Step::Put { number, row, key, .. }, 0) => self.writes.entry(number).or_default().push((row, Some(key))),
            (Step::Erase { number, row }, 0) => self.writes.entry(number).or_default().push((row, None)),
            (Step::Abort { number }, 0) => drop(self.taken.remove(&number)),
            (Step::Prepare { number }, 0) => return self.prepare(number),
            (Step::Prepare { number }, 7) => return self.taken_by_another(number),
            (Step::Prepare { number }, 13) => return self.too_few_versions(number),
            (Step::Install { number }, 0) => return self.install(number),
            (Step::Publish { number }, 0) => return self.publish(number),
            (Step::Capture { key, .. }, 0) => return self.capture(key),
            _ => {}
        }
        Vec::new()
    }
}

fn add(counts: &mut Counts, log: &[u8]) {
    let mut followed = Followed::default();
    for (step, answer) in told(log) {
        for case in followed.follow(&step, answer) {
            *counts.entry(case).or_default() += 1;
        }
    }
}

#[test]
fn every_case_of_an_erase_occurs() {
    let mut random = Random::of_seed(1);
    let mut counts = Counts::new();
    for family in [Family::Mixed, Family::Contended, Family::Limits] {
        for _ in 0..LOGS {
            let steps = random.from_to(1, STEPS);
            add(&mut counts, &log(family, steps, &mut random));
        }
    }
    assert_eq!(counts.len(), CASES, "{counts:?}");
    assert!(counts.values().all(|&count| count >= OFTEN), "{counts:?}");
}
