//! What the program prints, table by table.

pub mod counts;
pub mod times;

use generator::{with_posted, Posted, Random, STEPS_OF_A_ROUND};

use bench::case::Case;

pub const SEED: u64 = 1;
/// Of a log that shows how the cost grows, so many steps count.
pub const GROWTH_STEPS: u64 = 20_000;
/// Versions of a chain.
pub const DEPTHS: [u64; 5] = [1, 16, 256, 1024, 4096];
/// Sizes of stores whose rows are all posted, from the one that the others are compared with to the largest.
pub const ROWS: [u32; 4] = [16, 64, 256, 1024];
pub const BUCKETS: [u32; 2] = [64, 4096];

/// About so many steps of the same work over such a store.
fn posted_case(of: &Posted, steps: u64) -> Case {
    Case::of_stretch(with_posted(of, steps / STEPS_OF_A_ROUND, &mut Random::of_seed(SEED)))
}

/// The last by the first: how much more the largest store costs.
fn growth(of_each: &[f64]) -> f64 {
    match *of_each {
        [first, .., last] => last / first,
        _ => 1.0,
    }
}
