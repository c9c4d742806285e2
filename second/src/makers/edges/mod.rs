//! Further cases made by hand, at every edge of document 01, of the last head's
//! own maximum, of link lists, of 16 and 32 bits, of how much would have fitted
//! and of several drives, and past it; each file here has one subject.

pub mod closes;
pub mod codes;
pub mod conflicts;
pub mod decks;
pub mod fitted;
pub mod fitted_closes;
pub mod fitted_codes;
pub mod fitted_ends;
pub mod fitted_tables;
pub mod last_head;
pub mod last_head_sizes;
pub mod list_codes;
pub mod list_conflicts;
pub mod list_decks;
pub mod list_moves;
pub mod list_runs;
pub mod list_tables;
pub mod lists;
pub mod nines;
pub mod over_ends;
pub mod places;
pub mod runs;
pub mod shortcuts;
pub mod sizes;
pub mod unit_conflicts;
pub mod unit_runs;
pub mod unit_sizes;
pub mod unit_tables;
pub mod units;
pub mod views;
pub mod walks;
pub mod wide_ends;
pub mod wide_places;
pub mod wide_sizes;
pub mod wide_tables;

use crate::board::SECTOR_BYTES;
use crate::makers::block::Block;
use crate::makers::script::Script;
use crate::trial::line::Line;

/// The command Write Data.
pub const WRITE: u8 = 1;
/// The command Read Data.
pub const READ: u8 = 2;

/// All the cases of this folder.
pub fn all_edges(script: &mut Script) {
    sizes::all(script);
    walks::all(script);
    codes::all(script);
    runs::all(script);
    nines::all(script);
    closes::all(script);
    views::all(script);
    conflicts::all(script);
    shortcuts::all(script);
    decks::all(script);
    last_head::all(script);
    over_ends::all(script);
    last_head_sizes::all(script);
    places::all(script);
    list_codes::all(script);
    list_moves::all(script);
    list_conflicts::all(script);
    list_tables::all(script);
    list_runs::all(script);
    list_decks::all(script);
    wide_places::all(script);
    wide_sizes::all(script);
    wide_ends::all(script);
    wide_tables::all(script);
    fitted::all(script);
    fitted_ends::all(script);
    fitted_codes::all(script);
    fitted_tables::all(script);
    fitted_closes::all(script);
    units::all(script);
    unit_conflicts::all(script);
    unit_sizes::all(script);
    unit_tables::all(script);
    unit_runs::all(script);
}

/// Memory of a length, with a pattern.
pub fn memory(length: u64) -> Line {
    Line::Memory { length, a: 3, b: 7 }
}

/// An image of so many sectors, with a pattern.
pub fn image(sectors: u64) -> Line {
    Line::Image { length: SECTOR_BYTES * sectors, a: 5, b: 3, c: 11 }
}

/// A chain with 2 + 3 + 1 steps, none in the way of another.
pub fn six_steps(script: &mut Script) {
    script.bench_case();
    script.block(0x00, Block::new(READ).at(0, 0, 7).count(2).data(0x400).next(0x20));
    script.block(0x20, Block::new(WRITE).at(1, 0, 6).count(3).data(0x800).next(0x40));
    script.block(0x40, Block::new(0));
    script.say(Line::Walk(0));
}
