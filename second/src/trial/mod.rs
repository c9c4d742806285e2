//! The case format: its lines, the state that they play on, the answers that
//! are printed, and the count of what came up.

pub mod answer;
pub mod digest;
pub mod fitted;
pub mod last_head;
pub mod line;
pub mod list_steps;
pub mod list_walks;
pub mod state;
pub mod stream;
pub mod tally;
pub mod unit_looks;
pub mod unit_steps;
pub mod unit_walks;
pub mod wide;
