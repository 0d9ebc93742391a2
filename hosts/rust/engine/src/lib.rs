//! The proved engine for tests: a process that replays what it is sent (`hosts/c/driver.c`), linked with the archive of any target and run
//! natively or under an emulator.

mod driver;

pub use driver::{Driver, LentDriver, Replayed, Tables, LENT_STACK, STACK};
