//! The code that a command will get, from what the walk copies, and how many
//! sectors would have fitted. The first code that applies wins, in the order of
//! document 01 and ticket 2 of document 02; the number is ticket 4, and whose
//! drive is asked ticket 5.

use crate::board::{Board, Unit, SECTOR_BYTES};
use crate::iopb::Fields;
use crate::link_list::{elements_said, read_list};
use crate::range::{sum_of_lengths, Range};

const NO_OPERATION: u64 = 0;
const WRITE_DATA: u64 = 1;
const READ_DATA: u64 = 2;

/// The most sectors that a status byte can tell of.
const MOST_TOLD: u64 = 255;

/// What the walk finds of a command: its code, how many sectors would have
/// fitted where that is told, else 0, and the ranges of its link list wherever
/// the list was read. Where it was not, there are none.
#[derive(Clone, Debug, PartialEq, Eq)]
pub struct Found {
    pub code: u8,
    pub fitted: u8,
    pub list: Vec<Range>,
}

impl Found {
    /// A code that tells no number, without a list.
    fn code(code: u8) -> Found {
        Found { code, fitted: 0, list: Vec::new() }
    }

    /// A code for an end that so many sectors would not have passed.
    fn past_an_end(code: u8, fitted: u8) -> Found {
        Found { fitted, ..Found::code(code) }
    }
}

/// How many whole sectors would have fitted, as the status byte tells it: the
/// most that the test for the end lets through, or 255 if those are more. The
/// test itself is asked, one sector after the other, so no end has a rule of
/// its own here: from an address past the end not even one fits.
fn most_that_fit(fit: impl Fn(u64) -> bool) -> u8 {
    let mut sectors = 0;
    while sectors < MOST_TOLD && fit(sectors + 1) {
        sectors += 1;
    }
    sectors as u8
}

/// CHEN set and the next address odd: the chain ends at this command.
pub fn next_misaligned(fields: &Fields) -> bool {
    fields.chen == 1 && fields.next % 2 == 1
}

/// What is found of the command at this address, which has these fields.
pub fn find(board: &Board, address: u64, fields: &Fields) -> Found {
    if let Some(found) = found_before_data(board, fields) {
        return found;
    }
    if fields.sgm == 0 {
        return found_by_data(board, fields);
    }
    let bytes = SECTOR_BYTES * fields.count;
    match read_list(board, fields.data, elements_said(board, address)) {
        None => Found::code(0x4B),
        // Of a command with a list no number is told, whatever its ranges are.
        Some(list) => Found { code: list_code(board, &list, bytes), fitted: 0, list },
    }
}

/// What is settled before anyone asks where the data lies.
fn found_before_data(board: &Board, fields: &Fields) -> Option<Found> {
    if next_misaligned(fields) {
        return Some(Found::code(0x1E));
    }
    let listless = fields.sgm == 1 && fields.command == NO_OPERATION;
    if fields.command > READ_DATA || listless || fields.subfunction != 0 {
        return Some(Found::code(0x14));
    }
    if fields.command == NO_OPERATION {
        return Some(Found::code(0x00));
    }
    found_by_drive(board, fields)
}

/// The codes that a transfer gets for its unit, its count, its place on the
/// unit's own drive, or that drive's protection.
fn found_by_drive(board: &Board, fields: &Fields) -> Option<Found> {
    let Some(Unit { drive, .. }) = board.unit(fields.unit) else {
        return Some(Found::code(0x42));
    };
    if fields.count == 0 {
        return Some(Found::code(0x13));
    }
    // The same code as for the end of the drive, but no number is told.
    if fields.cylinder > u64::from(drive.max_cylinder) {
        return Some(Found::code(0x10));
    }
    if fields.head > u64::from(drive.max_head) {
        return Some(Found::code(0x11));
    }
    // The maximum is that of the head itself: the last may have its own.
    if fields.sector > drive.max_sector_of(fields.head) {
        return Some(Found::code(0x12));
    }
    let first = drive.sector_number(fields.cylinder, fields.head, fields.sector);
    let fit = |sectors: u64| first + sectors <= drive.number_of_sectors();
    if !fit(fields.count) {
        return Some(Found::past_an_end(0x10, most_that_fit(fit)));
    }
    if fields.command == WRITE_DATA && drive.protected {
        return Some(Found::code(0x90));
    }
    None
}

/// The end of memory, for a transfer without a list.
fn found_by_data(board: &Board, fields: &Fields) -> Found {
    let fit = |sectors: u64| board.in_memory(fields.data, SECTOR_BYTES * sectors);
    if fit(fields.count) {
        Found::code(0x00)
    } else {
        Found::past_an_end(0x4B, most_that_fit(fit))
    }
}

/// The code of a transfer by its list, which must have so many bytes. Ranges of
/// length 0 are asked for like the others.
fn list_code(board: &Board, list: &[Range], bytes: u64) -> u8 {
    if sum_of_lengths(list) != bytes {
        return 0x1C;
    }
    if list.iter().any(|range| range.address % 2 == 1) {
        return 0x1F;
    }
    if !list.iter().all(|range| range.in_memory(board)) {
        return 0x4B;
    }
    0x00
}
