//! How fast the firmware is: against plain copies of the same sectors, against the ordinary board,
//! and against the second program.

pub mod clock;
pub mod ground;
pub mod page;
pub mod works;
