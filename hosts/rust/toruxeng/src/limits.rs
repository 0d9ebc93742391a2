//! The limits of document 01, each named once; what is beyond one is refused with the number beside it.

/// A store's sizes at most (1).
pub const ROWS: u32 = 1024;
pub const VERSIONS: u32 = 4096;
pub const BUCKETS: u32 = 4096;

/// Transactions that are live at once (3).
pub const LIVE: usize = 8;

/// Buckets that a transaction reads (9), versions that it reads (11) and writes that it has pending (12).
pub const INDEX_READS: usize = 16;
pub const READ_RECORDS: usize = 128;
pub const PENDING_WRITES: usize = 16;
