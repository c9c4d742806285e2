//! Random chains, played on a board and on the second program side by side: after every call the
//! replies and every byte of memory, of all four images and of the table must be the same.

pub mod acts;
pub mod call;
pub mod counts;
pub mod ends;
pub mod fitted_rows;
pub mod last_head;
pub mod list_rows;
pub mod lists;
pub mod make;
pub mod over_units;
pub mod play;
pub mod sides;
pub mod spoil;
pub mod unit_rows;
pub mod unit_steps;
pub mod units;
pub mod wide_rows;
