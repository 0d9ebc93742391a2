//! A store takes steps out of its log, and answers as a log does from which nothing is taken out; so does one that restarts.

use toruxeng::{replay, Error, Log, Prepared, Refusal, Step, Store, Transaction, Values, Verdict};

const ROWS: u32 = 6;
const KEYS: u64 = 5;
const BUCKETS: u32 = 3;
const VERSIONS: u32 = 200;

/// What both must agree on; stamps and numbers differ, since every begin that stays moves the clock.
#[derive(Debug, PartialEq, Eq)]
enum Answer {
    Done,
    Rows(Vec<u32>),
    Refused(Refusal),
}

impl Answer {
    fn of<T>(result: Result<T, Error>, of: impl FnOnce(T) -> Answer) -> Answer {
        match result {
            Ok(value) => of(value),
            Err(Error::Refused(refusal)) => Answer::Refused(refusal),
            Err(Error::Stopped(stopped)) => panic!("{stopped}"),
        }
    }
}

/// A log that keeps every step.
struct WholeLog {
    log: Log,
    report: Vec<u8>,
}

impl WholeLog {
    fn ask(&mut self, step: Step) -> Result<Values<'_>, Refusal> {
        self.log.step(step);
        self.report.resize(self.log.report_room(), 0);
        let report = replay(self.log.bytes(), &mut self.report).expect("a well-formed log");
        report.last().expect("every step has a line").answer
    }

    /// The last answer, or the first refusal.
    fn ask_all(&mut self, steps: &[Step]) -> Answer {
        let mut answer = Answer::Done;
        for &step in steps {
            answer = match self.ask(step) {
                Ok(Values::Rows(rows)) => Answer::Rows(rows.collect()),
                Ok(_) => Answer::Done,
                Err(refusal) => return Answer::Refused(refusal),
            };
        }
        answer
    }

    fn begin(&mut self) -> Result<u64, Refusal> {
        match self.ask(Step::begin())? {
            Values::Number(number) => Ok(number),
            other => panic!("begin: {other:?}"),
        }
    }

    fn read(&mut self, number: u64, key: u64) -> Answer {
        self.ask_all(&[Step::capture(number, key), Step::collect(number), Step::rows(number, ROWS)])
    }

    fn verdict(&mut self, number: u64) -> Result<Verdict, Refusal> {
        match self.ask(Step::validate(number))? {
            Values::Verdict(verdict) => Ok(verdict),
            other => panic!("validate: {other:?}"),
        }
    }
}

/// A verdict without its stamps.
fn cause(verdict: Verdict) -> (u32, u64) {
    match verdict {
        Verdict::Clear => (0, 0),
        Verdict::StampChanged { bucket, .. } => (1, bucket),
        Verdict::RowChanged { row, .. } => (2, row),
        Verdict::Marked => (3, 0),
    }
}

enum Live<'s> {
    Open(Transaction<'s>),
    Prepared(Prepared<'s>),
}

/// The same transactions in the store and in the whole log, where they have other numbers.
struct Pair<'s> {
    store: &'s Store,
    whole: WholeLog,
    live: Vec<(Live<'s>, u64)>,
    /// The store's log at its last publish.
    published: Vec<u8>,
}

impl<'s> Pair<'s> {
    fn begin(&mut self) {
        match (self.store.begin(), self.whole.begin()) {
            (Ok(transaction), Ok(number)) => self.live.push((Live::Open(transaction), number)),
            (Err(Error::Refused(here)), Err(there)) => assert_eq!(here, there),
            (here, there) => panic!("begin: {here:?} and {there:?}"),
        }
    }

    fn look(&mut self, key: u64) {
        let here = Answer::of(self.store.look(key), Answer::Rows);
        let there = match self.whole.begin() {
            Err(refusal) => Answer::Refused(refusal),
            Ok(number) => {
                let rows = self.whole.read(number, key);
                assert_eq!(self.whole.ask_all(&[Step::abort(number)]), Answer::Done);
                rows
            }
        };
        assert_eq!(here, there);
    }

    fn read(whole: &mut WholeLog, transaction: &Transaction, number: u64, key: u64) {
        let read = transaction.read(key);
        let verdict = read.as_ref().ok().map(|read| read.validate().map(cause));
        assert_eq!(Answer::of(read, |read| Answer::Rows(read.rows().to_vec())), whole.read(number, key));
        if let Some(verdict) = verdict {
            assert_eq!(verdict, whole.verdict(number).map(cause).map_err(Error::Refused));
        }
    }

    fn prepare(&mut self, transaction: Transaction<'s>, number: u64) {
        let there = self.whole.ask_all(&[Step::prepare(number)]);
        let (live, here) = match transaction.prepare() {
            Ok(prepared) => (Live::Prepared(prepared), Answer::Done),
            Err(refused) => (Live::Open(refused.transaction), Answer::of(Err(refused.error), |()| Answer::Done)),
        };
        assert_eq!(here, there);
        self.live.push((live, number));
    }

    /// One step of a transaction that is live; `choice` says which.
    fn step(&mut self, (live, number): (Live<'s>, u64), choice: u64, row: u32, key: u64) {
        match (live, choice) {
            (live, 0) => {
                drop(live);
                assert_eq!(self.whole.ask_all(&[Step::abort(number)]), Answer::Done);
            }
            (Live::Prepared(prepared), _) => {
                let there = self.whole.ask_all(&[Step::install(number), Step::end(number), Step::publish(number)]);
                assert_eq!(Answer::of(prepared.publish(), |()| Answer::Done), there);
                let log = self.store.bytes();
                assert!(log.starts_with(&self.published), "what was published stays as it is");
                self.published = log;
            }
            (Live::Open(transaction), 1) => self.prepare(transaction, number),
            (Live::Open(transaction), 2) => {
                let put = Answer::of(transaction.put(row, key, 0), |()| Answer::Done);
                assert_eq!(put, self.whole.ask_all(&[Step::put(number, row, key, 0)]));
                self.live.push((Live::Open(transaction), number));
            }
            (Live::Open(transaction), _) => {
                Pair::read(&mut self.whole, &transaction, number, key);
                self.live.push((Live::Open(transaction), number));
            }
        }
    }
}

/// A small generator of numbers below a limit; the same seed gives the same numbers.
struct Numbers(u64);

impl Numbers {
    fn below(&mut self, limit: u64) -> u64 {
        self.0 = self.0.wrapping_mul(6364136223846793005).wrapping_add(1442695040888963407);
        (self.0 >> 33) % limit
    }
}

/// How much shorter the store's log became, and how many steps were refused on the way.
fn play(seed: u64) -> (usize, usize) {
    let store = Store::open(ROWS, VERSIONS, BUCKETS, 1).expect("sizes in range");
    let whole = WholeLog { log: Log::open(ROWS, VERSIONS, BUCKETS, 1), report: Vec::new() };
    let mut pair = Pair { store: &store, whole, live: Vec::new(), published: Vec::new() };
    let mut numbers = Numbers(seed);
    for _ in 0..150 {
        let (row, key) = (numbers.below(ROWS.into()) as u32, numbers.below(KEYS));
        match numbers.below(8) {
            0..=1 => pair.begin(),
            2 => pair.look(key),
            _ if pair.live.is_empty() => pair.begin(),
            _ => {
                let place = numbers.below(pair.live.len() as u64) as usize;
                let live = pair.live.swap_remove(place);
                pair.step(live, numbers.below(6), row, key);
            }
        }
    }
    let restarted = Store::restart(&store.bytes()).expect("a log of whole records");
    pair.live.clear();
    (0..KEYS).for_each(|key| assert_eq!(restarted.look(key), store.look(key)));
    let WholeLog { log, mut report } = pair.whole;
    let lines = replay(log.bytes(), &mut report).expect("a well-formed log").lines();
    (log.bytes().len() - store.bytes().len(), lines.filter(|line| line.number() > 0).count())
}

#[test]
fn any_sequence_gets_the_same_answers() {
    let (shorter, refused) = (0..60).map(play).fold((0, 0), |sum, one| (sum.0 + one.0, sum.1 + one.1));
    assert!(shorter > 50_000 && refused > 1_000, "too little to say much: {shorter} bytes taken out, {refused} steps refused");
}
