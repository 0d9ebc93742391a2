//! `toruxeng orders`: every order of two or three scripts, run by the engine.

mod answer;
mod count;
mod fixed;
mod outcome;
mod overtaken;
mod page;
mod script;
mod search;
mod summary;
mod table;

pub use answer::Told;
pub use outcome::{run, Outcome, Outcomes};
pub use page::page;
pub use script::{read, Script};
pub use table::table;
