//! The rows of the count for numbers at the edges of 16 and of 32 bits: how
//! large a drive, a place or a record's sector was, or that a board which cut a
//! product or a sum off there would have answered otherwise.

use crate::board::{Board, Unit, IMAGE_LIMIT, SECTOR_BYTES};
use crate::drive::Drive;
use crate::iopb::Fields;
use crate::link_list::{elements_said, ELEMENT_BYTES};
use crate::record::{Cause, Record};
use crate::trial::last_head::REFUSED_BY_ONE;
use std::collections::BTreeSet;

const DRIVE_16: &str = "call on a drive of 2 to the 16 sectors or more";
const DRIVE_31: &str = "call on a drive of 2 to the 31 sectors or more";
const DRIVE_32: &str = "call on a drive of 2 to the 32 sectors";
const CYLINDER_16: &str = "call on a drive of 2 to the 16 sectors a cylinder";
const PLACE_16: &str = "place 0 of 2 to the 16 or more";
const PLACE_31: &str = "place 0 of 2 to the 31 or more";
const PLACE_LAST: &str = "place 0 of a largest number of 2 to the 31 or more";
const PLACE_PAST: &str = "place 10 of one above a largest number of 2 to the 31 or more";
const PLACE_10: &str = "place 10, right in 16 bits";
const LOOK_10: &str = "look 10, right in 16 bits";
const OFFSET_10: &str = "look 10, 512 x number right in 32 bits";
const COUNT_16: &str = "refused 1: number of sectors right in 16 bits, alone";
const SIZES: [(u32, &str); 3] = [
    (16, "refused 1: drive's bytes right in 16 bits, alone"),
    (24, "refused 1: drive's bytes right in 24 bits, alone"),
    (32, "refused 1: drive's bytes right in 32 bits, alone"),
];
const NO_COUNT: [(u32, &str); 2] = [
    (16, "refused 1: empty image, number of sectors 0 in 16 bits, alone"),
    (32, "refused 1: empty image, number of sectors 0 in 32 bits, alone"),
];
const NO_SIZE: &str = "refused 1: empty image, drive's bytes 0 in 32 bits, alone";
const RECORD_16: &str = "record with a sector of 2 to the 16 or more";
const RECORD_31: &str = "record with a sector of 2 to the 31 or more";
const END_10: &str = "code 10 past the end, sum of 2 to the 16 or more";
const END_10_RIGHT: &str = "code 10 past the end, sum right in 16 bits";
const END_4B: &str = "code 4B without a list, end above 2 to the 16";
const BYTES_4B: &str = "code 4B without a list, 512 x count right in 16 bits";
const END_4B_32: &str = "code 4B without a list, end right in 32 bits";
const LIST_4B_32: &str = "code 4B, list's end right in 32 bits";
const END_00: &str = "code 00 without a list, data ends at 2 to the 16";
const NINE_SECTORS: [(u32, &str); 2] = [
    (16, "refused 9: sectors right in 16 bits, alone"),
    (32, "refused 9: sectors right in 32 bits, alone"),
];
const NINE_BYTES: &str = "refused 9: 512 x count right in 16 bits, alone";
const NINE_DATA: &str = "refused 9: data right in 32 bits, alone";

/// The row for a call that got 1 and would not have got it in fewer bits.
fn fewer_bits(word: &str) -> String {
    format!("{word} 1: size right in fewer bits, alone")
}

/// The names of all rows of this file, in the order in which they are printed.
pub fn names() -> Vec<String> {
    let mut names = vec![DRIVE_16, DRIVE_31, DRIVE_32, CYLINDER_16];
    names.extend([PLACE_16, PLACE_31, PLACE_LAST, PLACE_PAST, PLACE_10, LOOK_10, OFFSET_10]);
    names.push(COUNT_16);
    names.extend(SIZES.iter().chain(&NO_COUNT).map(|(_, name)| *name));
    names.push(NO_SIZE);
    let mut names: Vec<String> = names.into_iter().map(String::from).collect();
    names.extend(REFUSED_BY_ONE.map(fewer_bits));
    names.extend([RECORD_16, RECORD_31, END_10, END_10_RIGHT].map(String::from));
    names.extend([END_00, END_4B, BYTES_4B, END_4B_32, LIST_4B_32].map(String::from));
    names.extend(NINE_SECTORS.map(|(_, name)| name.to_string()));
    names.extend([NINE_BYTES, NINE_DATA].map(String::from));
    names
}

/// What is left of a number that is cut to so many bits.
fn left(number: u64, bits: u32) -> u64 {
    number % (1 << bits)
}

/// Those of some names that hold.
fn holding<const N: usize>(chosen: [(bool, &'static str); N]) -> Vec<&'static str> {
    chosen.into_iter().filter(|(holds, _)| *holds).map(|(_, name)| name).collect()
}

/// How large the drive is that some call takes.
pub fn drive_rows(drive: &Drive) -> Vec<&'static str> {
    let sectors = drive.number_of_sectors();
    holding([
        (sectors >= 1 << 16, DRIVE_16),
        (sectors >= 1 << 31, DRIVE_31),
        (sectors == 1 << 32, DRIVE_32),
        (drive.sectors_per_cylinder() == 1 << 16, CYLINDER_16),
    ])
}

/// The rows of a place asked for, with its number.
pub fn place_rows(drive: &Drive, sector: u64, number: u8) -> Vec<&'static str> {
    let sectors = drive.number_of_sectors();
    holding([
        (number == 0 && sector >= 1 << 16, PLACE_16),
        (number == 0 && sector >= 1 << 31, PLACE_31),
        (number == 0 && sector >= 1 << 31 && sector == sectors - 1, PLACE_LAST),
        (number == 10 && sector > 1 << 31 && sector == sectors, PLACE_PAST),
        (number == 10 && left(sector, 16) < sectors, PLACE_10),
    ])
}

/// The rows of a look at a unit that is there, with its number.
pub fn look_rows(unit: &Unit, sector: u64, number: u8) -> Vec<&'static str> {
    let offset = left(SECTOR_BYTES * sector, 32);
    holding([
        (number == 10 && left(sector, 16) < unit.drive.number_of_sectors(), LOOK_10),
        (number == 10 && offset < unit.image.len() as u64, OFFSET_10),
    ])
}

/// The rows of a call that got 1, for a unit that is there; `others_right` says
/// that everything but its drive and image was right.
pub fn refused_one_rows(unit: &Unit, word: &str, others_right: bool) -> Vec<String> {
    let image = unit.image.len() as u64;
    let otherwise = !unit.drive.last_head_right() || image > IMAGE_LIMIT || unit.image_right();
    if !others_right || otherwise {
        return Vec::new();
    }
    let sectors = unit.drive.number_of_sectors();
    let bytes = SECTOR_BYTES * sectors;
    let found = if image == 0 {
        let mut found = holding(NO_COUNT.map(|(bits, name)| (left(sectors, bits) == 0, name)));
        found.extend(holding([(left(bytes, 32) == 0, NO_SIZE)]));
        found
    } else {
        let mut found = holding([(image == SECTOR_BYTES * left(sectors, 16), COUNT_16)]);
        found.extend(holding(SIZES.map(|(bits, name)| (image == left(bytes, bits), name))));
        found
    };
    let mut rows: Vec<String> = found.into_iter().map(String::from).collect();
    if !rows.is_empty() {
        rows.push(fewer_bits(word));
    }
    rows
}

/// The rows of an accepted command.
pub fn command_rows(board: &Board, fields: &Fields, record: &Record) -> Vec<&'static str> {
    let mut rows =
        holding([(record.sector >= 1 << 16, RECORD_16), (record.sector >= 1 << 31, RECORD_31)]);
    rows.extend(match (record.code, fields.sgm) {
        (0x10, _) => end_of_drive_rows(&board.drive_of(fields.unit), fields, record),
        (0x00, 0) if record.is_transfer() => holding([(end_of(record) == 1 << 16, END_00)]),
        (0x4B, 0) => end_of_memory_rows(board, record),
        (0x4B, _) if !record.has_list() => end_of_list_rows(board, record),
        _ => Vec::new(),
    });
    rows
}

/// The address just past the one range of a command without a list.
fn end_of(record: &Record) -> u64 {
    u64::from(record.data) + record.data_bytes()
}

/// Of 10H for the end of the drive, and not for the cylinder.
fn end_of_drive_rows(drive: &Drive, fields: &Fields, record: &Record) -> Vec<&'static str> {
    let sum = u64::from(record.sector) + fields.count;
    let past_the_end = fields.cylinder <= u64::from(drive.max_cylinder);
    holding([
        (past_the_end && sum >= 1 << 16, END_10),
        (past_the_end && left(sum, 16) <= drive.number_of_sectors(), END_10_RIGHT),
    ])
}

/// Of 4BH for data outside memory, without a list.
fn end_of_memory_rows(board: &Board, record: &Record) -> Vec<&'static str> {
    holding([
        (end_of(record) > 1 << 16, END_4B),
        (bytes_right_in_16(board, record), BYTES_4B),
        (end_right_in_32(board, record), END_4B_32),
    ])
}

/// 512 x count cut to 16 bits would leave data that is in memory.
fn bytes_right_in_16(board: &Board, record: &Record) -> bool {
    board.in_memory(u64::from(record.data), left(record.data_bytes(), 16))
}

/// The end of the data cut to 32 bits would be in memory.
fn end_right_in_32(board: &Board, record: &Record) -> bool {
    left(end_of(record), 32) <= board.memory_bytes()
}

/// Of 4BH for a list that is not all in memory.
fn end_of_list_rows(board: &Board, record: &Record) -> Vec<&'static str> {
    let elements = elements_said(board, u64::from(record.iopb));
    let end = u64::from(record.data) + ELEMENT_BYTES * elements;
    holding([(left(end, 32) <= board.memory_bytes(), LIST_4B_32)])
}

/// The rows of a table that got 9 for one cause alone, where all its records
/// would be right in fewer bits. A record that is right stays so, since nothing
/// of it is lost.
pub fn refused_nine_rows(
    board: &Board,
    in_use: &[Record],
    found: &BTreeSet<Cause>,
) -> Vec<&'static str> {
    let transfers = || in_use.iter().filter(|record| record.is_transfer());
    if *found == BTreeSet::from([Cause::SectorsOutside]) {
        let sectors = |record: &Record| board.drive_of(record.unit.into()).number_of_sectors();
        let sum = |record: &Record| u64::from(record.sector) + u64::from(record.count);
        let right =
            |bits: u32| transfers().all(|record| left(sum(record), bits) <= sectors(record));
        return holding(NINE_SECTORS.map(|(bits, name)| (right(bits), name)));
    }
    if *found == BTreeSet::from([Cause::DataOutside]) {
        let plain = || transfers().filter(|record| !record.has_list());
        return holding([
            (plain().all(|record| bytes_right_in_16(board, record)), NINE_BYTES),
            (plain().all(|record| end_right_in_32(board, record)), NINE_DATA),
        ]);
    }
    Vec::new()
}
