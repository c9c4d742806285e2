//! The rows of the count that show what the last head's own maximum changes:
//! each says on which side of a line a call was, or that a board which took
//! all heads for equal would have answered otherwise.

use crate::board::{Board, Unit};
use crate::drive::Drive;
use crate::iopb::Fields;
use crate::place::{counted_to, Place};
use crate::record::{causes, Record};

const SHORTER: &str = "drive with a shorter last head";
const ONE_SECTOR: &str = "drive with one sector on a shorter last head";
const EQUAL: &str = "drive with equal heads";
const ONE_HEAD_SHORTER: &str = "drive with one head, shorter";
const ONE_HEAD_EQUAL: &str = "drive with one head, equal";
const END_10: &str = "code 10 past the end, equal heads would have room";
const HEAD_11: &str = "code 11 with a sector above both maxima";
const LAST_12: &str = "code 12 on the last head";
const LAST_12_WITHIN: &str = "code 12 on the last head, within the other maximum";
const OTHER_12: &str = "code 12 on another head";
const OTHER_00: &str = "code 00 above the last head's maximum, on another head";
const LAST_00: &str = "code 00 on a shorter last head";
const LAST_SECTOR_00: &str = "code 00 on the last sector of a shorter last head";
const ONTO: &str = "transfer onto a shorter last head";
const READ_OVER: &str = "read over the end of a shorter last head";
const WRITE_OVER: &str = "write over the end of a shorter last head";
const OVER_SEVERAL: &str = "transfer over several ends of a shorter last head";
const OVER_ONLY: &str = "transfer over the end of a shorter only head";
const ABOVE: &str = "refused 1: last maximum above the other";
const EQUAL_IMAGE: &str = "refused 1: image as of equal heads, alone";
const EQUAL_NINE: &str = "refused 9: sectors outside drive, equal heads would have them";
const EQUAL_LOOK: &str = "look 10, equal heads would have it";
const EQUAL_PLACE: &str = "place 10, equal heads would have it";
const PLACE_LAST: &str = "place 0 on a shorter last head";

/// The calls that number 1 is given by, but for `place`, which has no image.
pub const REFUSED_BY_ONE: [&str; 7] =
    ["walk", "lentwalk", "pick", "lentpick", "picks", "written", "look"];

/// The row for a call that got 1 for the last head's maximum and for nothing
/// else.
fn above_alone(word: &str) -> String {
    format!("{word} 1: last maximum above the other, alone")
}

/// The names of all rows of this file, in the order in which they are printed.
pub fn names() -> Vec<String> {
    let mut names = Vec::new();
    names.extend([SHORTER, ONE_SECTOR, EQUAL, ONE_HEAD_SHORTER, ONE_HEAD_EQUAL]);
    names.extend([END_10, HEAD_11, LAST_12, LAST_12_WITHIN, OTHER_12]);
    names.extend([OTHER_00, LAST_00, LAST_SECTOR_00]);
    names.extend([ONTO, READ_OVER, WRITE_OVER, OVER_SEVERAL, OVER_ONLY]);
    names.extend([PLACE_LAST, EQUAL_PLACE, EQUAL_LOOK, EQUAL_NINE, EQUAL_IMAGE, ABOVE]);
    let mut names: Vec<String> = names.into_iter().map(String::from).collect();
    names.extend(REFUSED_BY_ONE.map(above_alone));
    names
}

/// What kind of drive a walk was accepted on.
pub fn drive_rows(drive: &Drive) -> Vec<&'static str> {
    match (drive.heads(), drive.last_head_shorter()) {
        (1, true) => vec![ONE_HEAD_SHORTER],
        (1, false) => vec![ONE_HEAD_EQUAL],
        (_, false) => vec![EQUAL],
        (_, true) if drive.last_head_max_sector == 0 => vec![SHORTER, ONE_SECTOR],
        (_, true) => vec![SHORTER],
    }
}

/// The rows of an accepted command, by its code.
pub fn command_rows(drive: &Drive, fields: &Fields, record: &Record) -> Vec<&'static str> {
    match record.code {
        0x10 if equal_heads_have_room(drive, fields) => vec![END_10],
        0x11 if fields.sector > u64::from(drive.max_sector) => vec![HEAD_11],
        0x12 if !drive.is_last_head(fields.head) => vec![OTHER_12],
        0x12 if fields.sector <= u64::from(drive.max_sector) => vec![LAST_12, LAST_12_WITHIN],
        0x12 => vec![LAST_12],
        0x00 if record.is_transfer() && drive.last_head_shorter() => {
            transfer_rows(drive, fields, record)
        }
        _ => Vec::new(),
    }
}

/// The same place and count on equal heads would stay on the drive.
fn equal_heads_have_room(drive: &Drive, fields: &Fields) -> bool {
    let equal = drive.as_if_equal();
    let first = equal.sector_number(fields.cylinder, fields.head, fields.sector);
    fields.cylinder < equal.cylinders() && first + fields.count <= equal.number_of_sectors()
}

/// Where a transfer begins, and over which ends of heads it runs.
fn transfer_rows(drive: &Drive, fields: &Fields, record: &Record) -> Vec<&'static str> {
    let mut rows = Vec::new();
    let several_heads = drive.heads() > 1;
    if !drive.is_last_head(fields.head) && fields.sector > u64::from(drive.last_head_max_sector) {
        rows.push(OTHER_00);
    }
    if drive.is_last_head(fields.head) && several_heads {
        rows.push(LAST_00);
        if fields.sector == u64::from(drive.last_head_max_sector) {
            rows.push(LAST_SECTOR_00);
        }
    }
    let passed = heads_passed(drive, record);
    let last_passed = passed.iter().filter(|head| drive.is_last_head(**head)).count();
    if passed.iter().any(|head| drive.is_last_head(head + 1)) {
        rows.push(ONTO);
    }
    match last_passed {
        0 => {}
        _ if !several_heads => rows.push(OVER_ONLY),
        _ if record.reads_sectors() => rows.push(READ_OVER),
        _ => rows.push(WRITE_OVER),
    }
    if last_passed > 1 && several_heads {
        rows.push(OVER_SEVERAL);
    }
    rows
}

/// The heads whose ends a transfer runs over, in order: it has a sector after
/// the last of each.
fn heads_passed(drive: &Drive, record: &Record) -> Vec<u64> {
    let first = u64::from(record.sector);
    let before_last = first..first + u64::from(record.count) - 1;
    let places = before_last.map(|sector| counted_to(drive, sector).expect("it is on the drive"));
    let at_end = |place: &Place| place.sector == drive.max_sector_of(place.head);
    places.filter(at_end).map(|place| place.head).collect()
}

/// The rows of a call that got 1, for a unit that is there; `others_right` says
/// that everything but its drive and image was right.
pub fn refused_one_rows(unit: &Unit, word: &str, others_right: bool) -> Vec<String> {
    let mut rows = Vec::new();
    if !unit.drive.last_head_right() {
        rows.push(ABOVE.to_string());
        if others_right && unit.image_fits() {
            rows.push(above_alone(word));
        }
    } else if others_right && !unit.image_right() && with_equal_heads(unit).image_right() {
        rows.push(EQUAL_IMAGE.to_string());
    }
    rows
}

/// The row of a table that got 9 and would have been sound on equal heads.
pub fn refused_nine_rows(board: &Board, table: &[Record], commands: u64) -> Vec<&'static str> {
    let units = board.units.each_ref().map(with_equal_heads);
    let equal = Board { memory: board.memory.clone(), units };
    if equal != *board && causes(&equal, table, commands).is_empty() {
        vec![EQUAL_NINE]
    } else {
        Vec::new()
    }
}

fn with_equal_heads(unit: &Unit) -> Unit {
    Unit { drive: unit.drive.as_if_equal(), ..unit.clone() }
}

/// The row of a look that got this number.
pub fn look_rows(drive: &Drive, sector: u64, number: u8) -> Vec<&'static str> {
    match number {
        10 if sector < drive.as_if_equal().number_of_sectors() => vec![EQUAL_LOOK],
        _ => Vec::new(),
    }
}

/// The rows of a place asked for, with its number.
pub fn place_rows(drive: &Drive, sector: u64, number: u8, place: &Place) -> Vec<&'static str> {
    let on_last = drive.heads() > 1 && drive.is_last_head(place.head);
    match number {
        0 if on_last && drive.last_head_shorter() => vec![PLACE_LAST],
        10 if sector < drive.as_if_equal().number_of_sectors() => vec![EQUAL_PLACE],
        _ => Vec::new(),
    }
}
