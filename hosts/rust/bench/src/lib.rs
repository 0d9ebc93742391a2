//! What `bench` measures, part by part. The program itself reads its words and prints.

pub mod case;
pub mod engine;
pub mod heap;
pub mod instructions;
pub mod kinds;
mod library;
pub mod machine;
pub mod medians;
mod processor_time;
pub mod sqlite;
pub mod table;
pub mod transactions;
