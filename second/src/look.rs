//! To look at a sector of a unit: its number, and its 512 bytes of the image.
//! A look changes nothing.

use crate::board::{Board, SECTOR_BYTES};

/// The number of a look. Memory has no say in it, and the images of all units
/// that are there have, before anyone asks for the unit.
pub fn look_number(board: &Board, unit: u64, sector: u64) -> u8 {
    if !board.images_right() {
        return 1;
    }
    let Some(unit) = board.unit(unit) else {
        return 11;
    };
    if sector >= unit.drive.number_of_sectors() {
        return 10;
    }
    0
}

/// The part of the unit's image itself, empty exactly where the number is not 0.
pub fn look(board: &Board, unit: u64, sector: u64) -> &[u8] {
    if look_number(board, unit, sector) != 0 {
        return &[];
    }
    let from = (SECTOR_BYTES * sector) as usize;
    &board.units[unit as usize].image[from..from + SECTOR_BYTES as usize]
}
