//! The limits of document 01, as request (i) of document 02 sets them, each named once.

/// What a store can be opened with at most.
pub const ROWS: u32 = 1024;
pub const VERSIONS: u32 = 4096;
pub const BUCKETS: u32 = 4096;

pub const LIVE: usize = 8;

/// Of one transaction.
pub const INDEX_READS: usize = 16;
pub const READ_RECORDS: usize = 128;
pub const PENDING_WRITES: usize = 16;
