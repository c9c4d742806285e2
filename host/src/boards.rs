//! What a board is to its callers, so that the same tests and the same clock can be held to any:
//! the archive, and the board written in the ordinary way.

use crate::archive::{Images, ImagesMut};
use crate::declared::{Drive, LentDrives, Part, Placed, Ran, Record, Walked};
use crate::field::Fields;
use crate::{archive, field, ordinary};

type Walk = fn(&[u8], &Images, &LentDrives, u32, &mut [Record]) -> Walked;
/// A call that steps: `W` says where to step or how far, `R` is what it gives.
type Step<W, R> = fn(&mut [u8], &mut ImagesMut, &LentDrives, &mut [Record], usize, W) -> R;

type RunPicks = fn(&mut [u8], &mut ImagesMut, &LentDrives, &mut [Record], usize, &[u8]) -> Ran;

/// The calls of a board. Memory, images and table are the caller's, and lent for one call.
pub struct Board {
    pub name: &'static str,
    pub walk: Walk,
    pub pick: Step<usize, u8>,
    pub run_picks: RunPicks,
    pub run_written: Step<u64, Ran>,
    pub look_number: fn(&Images, &LentDrives, u8, u32) -> u8,
    pub look_part: fn(&Images, &LentDrives, u8, u32) -> Part,
    pub place: fn(Drive, u32) -> Placed,
    pub chain_steps: fn(&[Record], usize) -> u64,
    pub view_number: fn(&[u8], u32) -> u8,
    pub view: fn(&[u8], u32) -> Fields,
}

pub const ARCHIVE: Board = Board {
    name: "the archive",
    walk: archive::walk,
    pick: archive::pick,
    run_picks: archive::run_picks,
    run_written: archive::run_written,
    look_number: archive::look_number,
    look_part: archive::look_part,
    place: archive::place,
    chain_steps: archive::chain_steps,
    view_number: field::view_number,
    view: field::view,
};

pub const ORDINARY: Board = Board {
    name: "the ordinary board",
    walk: ordinary::walk,
    pick: ordinary::pick,
    run_picks: ordinary::run_picks,
    run_written: ordinary::run_written,
    look_number: ordinary::look_number,
    look_part: ordinary::look_part,
    place: ordinary::place,
    chain_steps: ordinary::chain_steps,
    view_number: ordinary::view_number,
    view: ordinary::view,
};
