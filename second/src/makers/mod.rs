//! The makers of cases and decks: random ones, which a seed decides, and
//! those made by hand.

pub mod block;
pub mod calls;
pub mod cases;
pub mod chain;
pub mod decks;
pub mod edges;
pub mod fitted_cases;
pub mod ground;
pub mod lay;
pub mod lines;
pub mod random_lists;
pub mod rng;
pub mod script;
pub mod spoil;
pub mod spoil_ranges;
pub mod unit_calls;
pub mod unit_cases;
pub mod wide_cases;
pub mod wide_drives;

/// The largest address, place and sector that a line can name.
pub const ALL_32_BITS: u64 = 0xFFFF_FFFF;
