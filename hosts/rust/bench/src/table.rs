//! The transactions of a log on a table of SQLite, one after another, as a user of SQLite would write them.

use std::ffi::CStr;
use std::hint::black_box;
use std::time::Duration;

use twin::{Content, Step, Store};

use crate::processor_time;
use crate::sqlite::{Connection, Sqlite, Statement};
use crate::transactions::{Finish, Operation, Transaction};

const TABLE: &CStr = c"
    CREATE TABLE payments (row INTEGER PRIMARY KEY, key INTEGER NOT NULL, payload INTEGER NOT NULL);
    CREATE INDEX payments_by_key ON payments (key);";
const READ: &CStr = c"SELECT row, payload FROM payments WHERE key = ? ORDER BY row";
const PUT: &CStr = c"
    INSERT INTO payments (row, key, payload) VALUES (?, ?, ?)
    ON CONFLICT (row) DO UPDATE SET key = excluded.key, payload = excluded.payload";
const ERASE: &CStr = c"DELETE FROM payments WHERE row = ?";
const WHOLE: &CStr = c"SELECT row, key, payload FROM payments ORDER BY row";

/// Its statements, prepared once.
struct Table<'c> {
    begin: Statement<'c>,
    read: Statement<'c>,
    put: Statement<'c>,
    erase: Statement<'c>,
    commit: Statement<'c>,
    rollback: Statement<'c>,
}

impl<'c> Table<'c> {
    /// The table, empty, and its statements.
    fn create(connection: &'c Connection) -> Table<'c> {
        connection.execute(TABLE);
        Table {
            begin: connection.prepare(c"BEGIN"),
            read: connection.prepare(READ),
            put: connection.prepare(PUT),
            erase: connection.prepare(ERASE),
            commit: connection.prepare(c"COMMIT"),
            rollback: connection.prepare(c"ROLLBACK"),
        }
    }

    /// Runs a whole transaction; `found` is given each row and payload that a read finds, with the read's place among the operations.
    fn run(&mut self, transaction: &Transaction, mut found: impl FnMut(usize, u32, u64)) {
        self.begin.run(&[], |_| ());
        for (place, operation) in transaction.operations.iter().enumerate() {
            match *operation {
                Operation::Read { key, .. } => {
                    self.read.run(&[key as i64], |row| found(place, row.number(0) as u32, row.number(1) as u64));
                }
                Operation::Put { row, key, payload } => self.put.run(&[row.into(), key as i64, payload as i64], |_| ()),
                Operation::Erase { row } => self.erase.run(&[row.into()], |_| ()),
            }
        }
        match transaction.finish {
            Finish::Ended => self.commit.run(&[], |_| ()),
            Finish::Aborted => self.rollback.run(&[], |_| ()),
        }
    }
}

/// The time of all transactions on a fresh table, which is there before.
pub fn time(sqlite: &Sqlite, transactions: &[Transaction]) -> Duration {
    let connection = sqlite.in_memory();
    let mut table = Table::create(&connection);
    let start = processor_time::now();
    for transaction in transactions {
        table.run(transaction, |_, row, payload| {
            black_box((row, payload));
        });
    }
    processor_time::now() - start
}

/// What was compared.
#[derive(Clone, Copy, Debug, Default, PartialEq, Eq)]
pub struct Compared {
    /// Those that ended.
    pub transactions: usize,
    /// Their reads.
    pub reads: usize,
    /// The rows that these found.
    pub rows: usize,
    /// The rows that hold something at the end.
    pub left: usize,
}

/// Runs all of them on a fresh table. Where one ends, each of its reads finds the rows that the report has; and the table is left
/// with these rows. Or what is otherwise.
pub fn compare(sqlite: &Sqlite, transactions: &[Transaction], left: &[(u32, Content)]) -> Result<Compared, String> {
    let connection = sqlite.in_memory();
    let mut table = Table::create(&connection);
    let mut compared = Compared { left: left.len(), ..Compared::default() };
    for transaction in transactions {
        let mut found = vec![Vec::new(); transaction.operations.len()];
        table.run(transaction, |place, row, _| found[place].push(row));
        // what an aborted one read may have been overtaken before its abort
        if transaction.finish == Finish::Ended {
            compared.transactions += 1;
            same_reads(transaction, &found, &mut compared)?;
        }
    }
    let whole = whole(&connection);
    if whole != left {
        return Err(format!("sqlite is left with {whole:?}, the store with {left:?}"));
    }
    Ok(compared)
}

/// Counts the reads of a transaction, where each found the rows of the report.
fn same_reads(transaction: &Transaction, found: &[Vec<u32>], compared: &mut Compared) -> Result<(), String> {
    for (operation, found) in transaction.operations.iter().zip(found) {
        let Operation::Read { key, rows } = operation else { continue };
        if rows != found {
            return Err(format!("key {key}: sqlite reads the rows {found:?}, the report has {rows:?}: {transaction:?}"));
        }
        compared.reads += 1;
        compared.rows += rows.len();
    }
    Ok(())
}

/// Every row of the table.
fn whole(connection: &Connection) -> Vec<(u32, Content)> {
    let mut rows = Vec::new();
    connection.prepare(WHOLE).run(&[], |row| {
        rows.push((row.number(0) as u32, Content { key: row.number(1) as u64, payload: row.number(2) as u64 }));
    });
    rows
}

/// The rows that hold something at the end of a log, by the twin's store: a report has no payloads.
///
/// # Panics
/// Where the log opens no store.
pub fn left_by(log: &[u8]) -> Vec<(u32, Content)> {
    let (open, mut rest) = twin::read_record(log).expect("a log has records");
    let Step::Open { rows, versions, buckets, clock } = open else { panic!("a log begins with its open") };
    let mut store = Store::open(rows, versions, buckets, clock).expect("a store of these sizes");
    while let Some((step, next)) = twin::read_record(rest) {
        let _ = store.step(&step);
        rest = next;
    }
    (0..).zip(store.seen_now()).filter_map(|(row, content)| Some((row, content?))).collect()
}
