//! The host's side of Toruxeng: two proved functions, called over slices.
//!
//! [`Store`] keeps the log for an app and is the way to begin with; the rest is what it stands on.
//!
//! [`replay`] hands back the report, or the [`Status`] that stopped the replay beside how much was written before it.
//! [`replay_or_abort`] is for a process that must not go on after anything but 0, and [`replay_raw`] for pointers from elsewhere.
//! [`replay_lent`] does the same in tables of the caller's own, such as [`Tables`], for a thread with little stack.
//! [`Log`] builds the bytes of a log, [`Steps`] reads them, and [`Report::lines`] reads the answers as values.
//!
//! The functions allocate nothing, keep nothing between calls and cannot unwind, so any thread may call them at any time.

mod error;
mod kept;
mod lent;
pub mod limits;
mod log;
mod raw;
mod replay;
mod report;
mod step;
mod store;

pub use error::Error;
pub use lent::{replay_lent, words, Lent, RawTable, Sizes, Tables, Words};
pub use log::{Log, LONGEST_LINE};
pub use raw::{replay_lent_raw, replay_raw, RawError};
pub use replay::{replay, replay_or_abort, Status, Stopped};
pub use report::{Advice, Kind, Line, Lines, Refusal, Report, RowNumbers, Values, Verdict};
pub use step::{Fault, Malformed, NoStep, Step, Steps};
pub use store::{NotPrepared, Prepared, Read, Store, Transaction};

/// The version of the library, as the header and CHANGELOG.md say it.
pub const VERSION: &str = env!("CARGO_PKG_VERSION");
