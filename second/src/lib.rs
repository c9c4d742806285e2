//! A second, independent model of the board, written from document 01, tickets 1
//! to 5 of document 02 and the manual alone. It is slow and plain on purpose: it
//! says what the rules say, so that a faster board can be held against it, case by
//! case.

// The board and its rules.
pub mod board;
pub mod code;
pub mod conflict;
pub mod drive;
pub mod iopb;
pub mod link_list;
pub mod look;
pub mod pick;
pub mod place;
pub mod range;
pub mod record;
pub mod run;
pub mod walk;

// The bench program.
pub mod bench;

// The case format, and the makers of cases and decks.
pub mod makers;
pub mod trial;

pub mod command_line;
