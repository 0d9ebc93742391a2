//! A store for an app: it keeps the log, and asks the engine by replaying it.
//!
//! The engine answers `validate 0 0` to a transaction that read nothing, so after a refused capture an app that looks at the
//! verdict alone takes a read that never happened as clean. Here a verdict is only given by a [`Read`], and a read only exists
//! where capture, collect and rows were all accepted.

use std::fmt;
use std::sync::{Mutex, MutexGuard, PoisonError};

use crate::error::Error;
use crate::kept::Kept;
use crate::limits::ROWS;
use crate::report::{Refusal, Values, Verdict};
use crate::step::Step;

/// The kept log and what is asked of it. Any thread may use it at any time; each step waits for the one before.
///
/// ```
/// # fn main() -> Result<(), toruxeng::Error> {
/// let store = toruxeng::Store::open(64, 1024, 257, 1)?;
/// let update = store.begin()?;
/// update.put(0, 1001, 7)?;
/// update.publish()?;
/// assert_eq!(store.look(1001)?, [0]);
/// # Ok(())
/// # }
/// ```
pub struct Store {
    kept: Mutex<Kept>,
}

impl Store {
    /// A fresh store of these sizes; status 1 where they are out of range.
    pub fn open(rows: u32, versions: u32, buckets: u32, clock: u64) -> Result<Store, Error> {
        Kept::open(rows, versions, buckets, clock).map(Store::of)
    }

    /// A store from the bytes of one that was killed. A last record that is cut is dropped; any other fault, and a log without
    /// its open, is status 15. Transactions that were installed are published, and all others that were live are aborted.
    /// Its [`Store::bytes`] are others than these then, and take their place before anything is appended.
    pub fn restart(bytes: &[u8]) -> Result<Store, Error> {
        Kept::restart(bytes).map(Store::of)
    }

    fn of(kept: Kept) -> Store {
        Store { kept: Mutex::new(kept) }
    }

    /// A copy of the kept log. What is behind the last publish may be taken out of it again, so a file is given
    /// [`Store::published`].
    pub fn bytes(&self) -> Vec<u8> {
        self.kept().bytes().to_vec()
    }

    /// A copy of the kept log up to its last publish, for a file and [`Store::restart`]: it grows and never changes otherwise.
    pub fn published(&self) -> Vec<u8> {
        self.kept().published().to_vec()
    }

    pub fn begin(&self) -> Result<Transaction<'_>, Error> {
        let number = self.kept().begin()?;
        Ok(Transaction { store: self, number })
    }

    /// The rows of a key now, for a tap that is over at once: one replay, and nothing of it is kept.
    pub fn look(&self, key: u64) -> Result<Vec<u32>, Error> {
        let mut kept = self.kept();
        let number = kept.clock();
        let [capture, collect, rows] = read_steps(number, key);
        kept.answer(&[Step::begin(), capture, collect, rows, Step::validate(number)], |values| match values {
            [.., Values::Verdict(Verdict::Clear)] => Ok(rows_of(values)),
            _ => Err(Error::Refused(Refusal::Conflict)),
        })?
    }

    /// A panic in another thread leaves the kept log whole, so a poisoned lock is no reason to stop.
    fn kept(&self) -> MutexGuard<'_, Kept> {
        self.kept.lock().unwrap_or_else(PoisonError::into_inner)
    }
}

fn read_steps(number: u64, key: u64) -> [Step; 3] {
    [Step::capture(number, key), Step::collect(number), Step::rows(number, ROWS)]
}

fn rows_of(values: &[Values]) -> Vec<u32> {
    let rows = values.iter().filter_map(|value| if let Values::Rows(rows) = value { Some(rows.clone()) } else { None });
    rows.flatten().collect()
}

/// A live transaction, Open between two calls; several may be live at once, at most eight. It is aborted when it is dropped, so
/// an early return leaves none behind.
///
/// A refusal leaves it as it was, and usable; but a stale read (8) marks it. A marked one can only be aborted: every read, put and
/// erase in it gets 8, prepare and publish get 14, or 7, and nothing changes.
#[derive(Debug)]
#[must_use = "a transaction is aborted when it is dropped"]
pub struct Transaction<'s> {
    store: &'s Store,
    number: u64,
}

impl<'s> Transaction<'s> {
    /// The rows of a key, as they were when the transaction began and as it wrote them itself. A read that is refused half way,
    /// by 11, is taken back as a whole, and the transaction is Open as before.
    pub fn read(&self, key: u64) -> Result<Read<'_>, Error> {
        let rows = self.store.kept().accept(&read_steps(self.number, key), rows_of)?;
        Ok(Read { transaction: self, rows })
    }

    /// The row is to hold this key and payload once the transaction is published.
    pub fn put(&self, row: u32, key: u64, payload: u64) -> Result<(), Error> {
        self.write(Step::put(self.number, row, key, payload))
    }

    /// The row is to hold nothing once the transaction is published. Where it holds nothing already when it is prepared, this takes
    /// no version.
    pub fn erase(&self, row: u32) -> Result<(), Error> {
        self.write(Step::erase(self.number, row))
    }

    fn write(&self, step: Step) -> Result<(), Error> {
        self.store.kept().accept(&[step], |_| ())
    }

    /// Has the buckets and rows of the transaction to itself from here on. Where this is refused the transaction comes back as it
    /// was: after 7 the same can be tried later, unless it is marked; after 14 it must begin anew.
    pub fn prepare(self) -> Result<Prepared<'s>, NotPrepared<'s>> {
        let prepared = self.write(Step::prepare(self.number));
        match prepared {
            Ok(()) => Ok(Prepared { transaction: self }),
            Err(error) => Err(NotPrepared { transaction: self, error }),
        }
    }

    /// Makes the writes visible: prepare and all that follows, in one replay. Where prepare is refused the transaction is
    /// aborted; [`Transaction::prepare`] gives it back instead.
    pub fn publish(self) -> Result<(), Error> {
        let [install, end, publish] = publish_steps(self.number);
        self.store.kept().publish(self.number, &[Step::prepare(self.number), install, end, publish])
    }

    /// As dropping it.
    pub fn abort(self) {}
}

fn publish_steps(number: u64) -> [Step; 3] {
    [Step::install(number), Step::end(number), Step::publish(number)]
}

impl Drop for Transaction<'_> {
    fn drop(&mut self) {
        self.store.kept().abort(self.number);
    }
}

/// What a transaction read. Only a read that happened has a verdict:
///
/// ```
/// # fn main() -> Result<(), toruxeng::Error> {
/// # let store = toruxeng::Store::open(4, 8, 4, 1)?;
/// let tap = store.begin()?;
/// let read = tap.read(6)?;
/// assert_eq!(read.validate()?, toruxeng::Verdict::Clear);
/// tap.abort();
/// # Ok(())
/// # }
/// ```
///
/// Without a read there is none:
///
/// ```compile_fail,E0599
/// # fn main() -> Result<(), toruxeng::Error> {
/// # let store = toruxeng::Store::open(4, 8, 4, 1)?;
/// let tap = store.begin()?;
/// assert_eq!(tap.validate()?, toruxeng::Verdict::Clear);
/// tap.abort();
/// # Ok(())
/// # }
/// ```
///
/// nor behind the end of the transaction:
///
/// ```compile_fail,E0505
/// # fn main() -> Result<(), toruxeng::Error> {
/// # let store = toruxeng::Store::open(4, 8, 4, 1)?;
/// let tap = store.begin()?;
/// let read = tap.read(6)?;
/// tap.abort();
/// assert_eq!(read.validate()?, toruxeng::Verdict::Clear);
/// # Ok(())
/// # }
/// ```
#[derive(Debug)]
#[must_use = "what was read stands only as long as its verdict is clear"]
pub struct Read<'t> {
    transaction: &'t Transaction<'t>,
    rows: Vec<u32>,
}

impl Read<'_> {
    /// The rows that match, ascending.
    pub fn rows(&self) -> &[u32] {
        &self.rows
    }

    /// Whether this and every other read of the transaction still stands; 7 while another transaction is prepared that needs a
    /// bucket that was read, be it to publish a change or only a read of its own.
    pub fn validate(&self) -> Result<Verdict, Error> {
        let Transaction { store, number } = self.transaction;
        store.kept().answer(&[Step::validate(*number)], |values| match values {
            [Values::Verdict(verdict)] => Ok(*verdict),
            // no replay answers this
            _ => Err(Error::Refused(Refusal::WrongShape)),
        })?
    }
}

/// A transaction that nothing can refuse any more. It is aborted when it is dropped without its publish.
#[derive(Debug)]
#[must_use = "a transaction is aborted when it is dropped"]
pub struct Prepared<'s> {
    transaction: Transaction<'s>,
}

impl Prepared<'_> {
    /// Makes the writes visible.
    pub fn publish(self) -> Result<(), Error> {
        let Transaction { store, number } = self.transaction;
        store.kept().publish(number, &publish_steps(number))
    }
}

/// A transaction whose prepare was refused; it is live as before. `?` aborts it and hands the error on:
///
/// ```
/// fn revoke(store: &toruxeng::Store, row: u32) -> Result<(), Box<dyn std::error::Error>> {
///     let update = store.begin()?;
///     update.erase(row)?;
///     let prepared = update.prepare()?;
///     Ok(prepared.publish()?)
/// }
/// # revoke(&toruxeng::Store::open(4, 8, 4, 1).expect("sizes in range"), 0).expect("nobody else writes");
/// ```
#[derive(Debug)]
pub struct NotPrepared<'s> {
    pub transaction: Transaction<'s>,
    pub error: Error,
}

impl From<NotPrepared<'_>> for Error {
    fn from(refused: NotPrepared<'_>) -> Error {
        refused.error
    }
}

/// A `NotPrepared` is itself no error of this kind, which must not borrow, as its transaction does.
impl From<NotPrepared<'_>> for Box<dyn std::error::Error> {
    fn from(refused: NotPrepared<'_>) -> Box<dyn std::error::Error> {
        refused.error.into()
    }
}

impl fmt::Debug for Store {
    fn fmt(&self, to: &mut fmt::Formatter) -> fmt::Result {
        write!(to, "a store with {} bytes kept", self.kept().bytes().len())
    }
}
