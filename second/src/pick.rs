//! A pick: one step at one place of the table, if nothing stands against it.
//! The step moves one sector, and the last step of a command closes it.

use crate::board::{Board, SECTOR_BYTES};
use crate::conflict::{conflict, touched, Touched};
use crate::range::bytes_end_to_end;
use crate::record::{causes, Record, MOST_COMMANDS};

const ERRS: u8 = 0x80;
const DONE: u8 = 0x40;

/// Takes one step at a place. The table is the lent run of records.
pub fn pick(board: &mut Board, table: &mut [Record], commands: u64, place: u64) -> u8 {
    let number = refuses_all(board, table, commands);
    if number != 0 {
        return number;
    }
    if place >= commands {
        return 8;
    }
    let in_use = &mut table[..commands as usize];
    // Later commands have no say, so their sets are not made.
    let sets: Vec<Touched> = in_use[..=place as usize].iter().map(touched).collect();
    pick_in_sound(board, in_use, &sets, place)
}

/// The numbers that stand before any place is looked at: 1, then 9, else 0.
pub fn refuses_all(board: &Board, table: &[Record], commands: u64) -> u8 {
    if !board.sizes_right() || (table.len() as u64) < MOST_COMMANDS {
        return 1;
    }
    if !causes(board, table, commands).is_empty() {
        return 9;
    }
    0
}

/// A pick in a sound table of the records in use, with their sets made.
pub fn pick_in_sound(board: &mut Board, in_use: &mut [Record], sets: &[Touched], place: u64) -> u8 {
    if place >= in_use.len() as u64 {
        return 8;
    }
    let place = place as usize;
    if in_use[place].finished() {
        return 7;
    }
    for earlier in 0..place {
        if !in_use[earlier].finished() && conflict(&sets[earlier], &sets[place]) {
            return 6;
        }
    }
    take_step(board, &mut in_use[place]);
    0
}

/// One step of an unfinished command of a sound table.
pub fn take_step(board: &mut Board, record: &mut Record) {
    if record.is_transfer() {
        move_sector(board, record);
    }
    record.taken += 1;
    // The close comes after the last sector has moved, never before.
    if record.finished() {
        close(board, record);
    }
}

/// Moves the next sector of the command's own unit, byte by byte in list order:
/// where ranges overlap, a read leaves what it filled last.
fn move_sector(board: &mut Board, record: &Record) {
    let step = u64::from(record.taken);
    let in_memory = bytes_end_to_end(&record.data_ranges(), SECTOR_BYTES * step, SECTOR_BYTES);
    let in_image = (SECTOR_BYTES * (u64::from(record.sector) + step)) as usize;
    let image = &mut board.units[usize::from(record.unit)].image;
    let sector = &mut image[in_image..in_image + SECTOR_BYTES as usize];
    for (byte, address) in sector.iter_mut().zip(in_memory) {
        let other = &mut board.memory[address as usize];
        if record.reads_sectors() {
            *other = *byte;
        } else {
            *byte = *other;
        }
    }
}

/// Writes the four status bytes. All are made from the record, since data may
/// have come to lie over the IOPB in the meantime; so is byte 3, whatever the
/// code. Byte 2 asks the unit that the record names, as it is now.
fn close(board: &mut Board, record: &Record) {
    let errs = if record.code == 0 { 0 } else { ERRS };
    let first = record.iopb as usize;
    board.memory[first] = (record.byte0 & !ERRS) | DONE | errs;
    board.memory[first + 1] = record.code;
    let protected = board.drive_of(u64::from(record.unit)).protected;
    board.memory[first + 2] = if protected { 0x13 } else { 0x03 };
    board.memory[first + 3] = record.fitted;
}
