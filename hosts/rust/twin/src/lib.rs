//! Document 01 once more, in plain Rust with vectors and maps.
//!
//! It was written from the document and its readings (docs/DECISIONS.md), and shares no code with the proved engine or its host wrapper,
//! so that where the two agree, two readings of the document agree.

mod lent;
pub mod limits;
mod records;
mod replay;
mod store;

pub use lent::{words_needed, words_of, Words};
pub use records::{read_record, Step};
pub use replay::{replay, replay_lent, whole_report};
pub use store::{Answer, Content, Phase, Refusal, Store, Values, Verdict};
