//! The system's SQLite, as far as a table in memory needs it. What it refuses is a mistake here, and ends the program.

use std::ffi::{c_char, c_int, c_void, CStr};
use std::ptr;

use crate::library::Library;

const LIBRARY: &CStr = c"libsqlite3.so.0";
const OK: c_int = 0;
const ROW: c_int = 100;
const DONE: c_int = 101;

type Database = *mut c_void;
type Prepared = *mut c_void;

/// Its functions, of the types that sqlite3.h gives to them; the arguments that are always null here are pointers to anything.
#[derive(Clone, Copy)]
pub struct Sqlite {
    libversion: unsafe extern "C" fn() -> *const c_char,
    open: unsafe extern "C" fn(*const c_char, *mut Database) -> c_int,
    close: unsafe extern "C" fn(Database) -> c_int,
    errmsg: unsafe extern "C" fn(Database) -> *const c_char,
    exec: unsafe extern "C" fn(Database, *const c_char, *const c_void, *mut c_void, *mut *mut c_char) -> c_int,
    prepare: unsafe extern "C" fn(Database, *const c_char, c_int, *mut Prepared, *mut *const c_char) -> c_int,
    finalize: unsafe extern "C" fn(Prepared) -> c_int,
    bind_int64: unsafe extern "C" fn(Prepared, c_int, i64) -> c_int,
    step: unsafe extern "C" fn(Prepared) -> c_int,
    reset: unsafe extern "C" fn(Prepared) -> c_int,
    column_count: unsafe extern "C" fn(Prepared) -> c_int,
    column_int64: unsafe extern "C" fn(Prepared, c_int) -> i64,
}

impl Sqlite {
    /// Of this machine, or why there is none.
    pub fn of_the_system() -> Result<Sqlite, String> {
        let library = Library::open(LIBRARY)?;
        // SAFETY: each field has the type of the function that it is filled with
        unsafe {
            Ok(Sqlite {
                libversion: library.function(c"sqlite3_libversion")?,
                open: library.function(c"sqlite3_open")?,
                close: library.function(c"sqlite3_close")?,
                errmsg: library.function(c"sqlite3_errmsg")?,
                exec: library.function(c"sqlite3_exec")?,
                prepare: library.function(c"sqlite3_prepare_v2")?,
                finalize: library.function(c"sqlite3_finalize")?,
                bind_int64: library.function(c"sqlite3_bind_int64")?,
                step: library.function(c"sqlite3_step")?,
                reset: library.function(c"sqlite3_reset")?,
                column_count: library.function(c"sqlite3_column_count")?,
                column_int64: library.function(c"sqlite3_column_int64")?,
            })
        }
    }

    /// As it names itself.
    pub fn version(&self) -> String {
        // SAFETY: it gives a string that ends with 0 and is never freed
        unsafe { CStr::from_ptr((self.libversion)()) }.to_string_lossy().into_owned()
    }

    /// A connection to a fresh database in memory.
    pub fn in_memory(&self) -> Connection {
        let mut connection = Connection { sqlite: *self, database: ptr::null_mut() };
        // SAFETY: the name ends with 0, and one pointer is written; it is closed when it is dropped, where it failed too
        let code = unsafe { (self.open)(c":memory:".as_ptr(), &mut connection.database) };
        connection.expect(OK, code);
        connection
    }
}

/// A database that is closed when this is dropped.
pub struct Connection {
    sqlite: Sqlite,
    database: Database,
}

impl Connection {
    /// Runs statements that answer nothing.
    pub fn execute(&self, statements: &CStr) {
        // SAFETY: the database is open and the text ends with 0; the pointers that may be null are
        let code =
            unsafe { (self.sqlite.exec)(self.database, statements.as_ptr(), ptr::null(), ptr::null_mut(), ptr::null_mut()) };
        self.expect(OK, code);
    }

    /// One statement with parameters.
    pub fn prepare(&self, text: &CStr) -> Statement<'_> {
        let mut prepared = ptr::null_mut();
        // SAFETY: the database is open and the text ends with 0, as the length -1 says; one pointer is written
        let code = unsafe { (self.sqlite.prepare)(self.database, text.as_ptr(), -1, &mut prepared, ptr::null_mut()) };
        self.expect(OK, code);
        // SAFETY: it was just prepared
        let columns = unsafe { (self.sqlite.column_count)(prepared) };
        Statement { connection: self, prepared, columns }
    }

    /// Ends the program where a function of this connection answers another code.
    fn expect(&self, expected: c_int, code: c_int) {
        assert!(code == expected, "sqlite answers {code}: {}", self.last_error());
    }

    /// In the words of SQLite.
    fn last_error(&self) -> String {
        // SAFETY: it takes any database, a null one too, and gives a string that ends with 0; the words are copied
        unsafe { CStr::from_ptr((self.sqlite.errmsg)(self.database)) }.to_string_lossy().into_owned()
    }
}

impl Drop for Connection {
    fn drop(&mut self) {
        // SAFETY: its statements borrow it, so they are finalized, and nobody uses it any more; of null nothing is closed
        unsafe { (self.sqlite.close)(self.database) };
    }
}

/// A statement that is prepared once and run often.
pub struct Statement<'c> {
    connection: &'c Connection,
    prepared: Prepared,
    columns: c_int,
}

impl Statement<'_> {
    /// Runs it to its end with these values for its parameters.
    pub fn run(&mut self, values: &[i64], mut on_row: impl FnMut(Row)) {
        let Connection { sqlite, .. } = self.connection;
        for (parameter, &value) in (1..).zip(values) {
            // SAFETY: the statement is not finalized; a parameter that it does not have is refused
            self.connection.expect(OK, unsafe { (sqlite.bind_int64)(self.prepared, parameter, value) });
        }
        loop {
            // SAFETY: the statement is not finalized
            match unsafe { (sqlite.step)(self.prepared) } {
                ROW => on_row(Row { statement: self }),
                code => break self.connection.expect(DONE, code),
            }
        }
        // SAFETY: the statement is not finalized
        self.connection.expect(OK, unsafe { (sqlite.reset)(self.prepared) });
    }
}

impl Drop for Statement<'_> {
    fn drop(&mut self) {
        // SAFETY: the database is open as long as it is borrowed, and nobody uses the statement any more
        unsafe { (self.connection.sqlite.finalize)(self.prepared) };
    }
}

/// A row that a statement stands at.
pub struct Row<'s> {
    statement: &'s Statement<'s>,
}

impl Row<'_> {
    /// The number in a column, counted from 0.
    pub fn number(&self, column: c_int) -> i64 {
        assert!((0..self.statement.columns).contains(&column), "there is no column {column}");
        // SAFETY: the statement stands at a row, and has the column
        unsafe { (self.statement.connection.sqlite.column_int64)(self.statement.prepared, column) }
    }
}
