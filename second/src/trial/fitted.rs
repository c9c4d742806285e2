//! The rows of the count for how much would have fitted: on which side of each
//! edge a command was, what its close posted, and that a board which takes one of
//! the ways that are ruled out would have told another number.

use crate::board::{Board, SECTOR_BYTES};
use crate::code::find;
use crate::iopb::{fields_at, Fields};
use crate::record::Record;

const DRIVE_FEW: &str = "code 10 past the end, 1 to 254 fitted";
const DRIVE_255: &str = "code 10 past the end, exactly 255 fitted";
const DRIVE_OVER: &str = "code 10 past the end, over 255 fitted";
const DRIVE_CUT: &str = "code 10 past the end, fitted is 0 in 8 bits";
const DRIVE_REST: &str = "code 10 past the end, another number did not fit";
const DRIVE_LIST: &str = "code 10 past the end, with a list";
const DRIVE_LIST_OVER: &str = "code 10 past the end, with a list, over 255 fitted";
const DRIVE_PROTECTED: &str = "code 10 past the end, a write on a protected drive";
const BOTH_ENDS: &str = "code 10 past both ends";
const BOTH_OTHER: &str = "code 10 past both ends, another number of memory";
const CYLINDER: &str = "code 10, cylinder above its maximum";
const CYLINDER_WRAPS: &str = "code 10, cylinder above its maximum, first sector past the end";
const CYLINDER_LIST: &str = "code 10, cylinder above its maximum, with a list";
const MEMORY_FEW: &str = "code 4B without a list, 1 or more fitted";
const MEMORY_127: &str = "code 4B without a list, 127 or 128 fitted";
const MEMORY_BEFORE: &str = "code 4B without a list, 0 fitted, address before the end";
const MEMORY_AT: &str = "code 4B without a list, address at the end";
const MEMORY_PAST: &str = "code 4B without a list, address past the end";
const MEMORY_EVEN: &str = "code 4B without a list, whole sectors up to the end";
const MEMORY_ONE_LESS: &str = "code 4B without a list, one byte less than whole sectors";
const MEMORY_ONE_MORE: &str = "code 4B without a list, one byte more than whole sectors";
const MEMORY_REST: &str = "code 4B without a list, another number did not fit";
const RANGE: &str = "code 4B by a range, whole sectors would have fitted";
const LIST: &str = "code 4B by the list itself";
const PROTECTED: &str = "code 90, would be past the end of memory";
const CLOSE_NONE: &str = "close that posts 00 over another byte 3";
const CLOSE_DRIVE: &str = "close that posts a number, code 10";
const CLOSE_MEMORY: &str = "close that posts a number, code 4B";
const CLOSE_MOVED: &str = "close that posts a number, transfer with code 00";
const CLOSE_QUIET: &str = "close that posts a number, code 00, no transfer";
const CLOSE_OTHER: &str = "close that posts a number, another code";
const CLOSE_LIST: &str = "close that posts a number, with ranges";
const CLOSE_CHANGED: &str = "close, the IOPB would now tell another number";
const CLOSE_BYTE: &str = "close that posts a number, another in byte 3";
const KEPT: &str = "walk 0, a number kept past its records";
const SET: &str = "walk 0, a number made 0";
const REFUSED: &str = "walk refused, a number kept";

/// The calls on a table that a number must not get refused.
const CALLS: [&str; 4] = ["pick", "lentpick", "picks", "written"];

/// The row for such a call that got 0.
fn not_refused(word: &str) -> String {
    format!("{word} 0 with a number that no walk gives")
}

/// The names of all rows of this file, in the order in which they are printed.
pub fn names() -> Vec<String> {
    let mut names = vec![DRIVE_FEW, DRIVE_255, DRIVE_OVER, DRIVE_CUT, DRIVE_REST];
    names.extend([DRIVE_LIST, DRIVE_LIST_OVER, DRIVE_PROTECTED, BOTH_ENDS, BOTH_OTHER]);
    names.extend([CYLINDER, CYLINDER_WRAPS, CYLINDER_LIST]);
    names.extend([MEMORY_FEW, MEMORY_127, MEMORY_BEFORE, MEMORY_AT, MEMORY_PAST]);
    names.extend([MEMORY_EVEN, MEMORY_ONE_LESS, MEMORY_ONE_MORE, MEMORY_REST]);
    names.extend([RANGE, LIST, PROTECTED]);
    names.extend([CLOSE_NONE, CLOSE_DRIVE, CLOSE_MEMORY, CLOSE_MOVED, CLOSE_QUIET]);
    names.extend([CLOSE_OTHER, CLOSE_LIST, CLOSE_CHANGED, CLOSE_BYTE, KEPT, SET, REFUSED]);
    let mut names: Vec<String> = names.into_iter().map(String::from).collect();
    names.extend(CALLS.map(not_refused));
    names
}

/// Those of some names that hold.
fn holding<const N: usize>(chosen: [(bool, &'static str); N]) -> Vec<&'static str> {
    chosen.into_iter().filter(|(holds, _)| *holds).map(|(_, name)| name).collect()
}

/// The rows of an accepted command.
pub fn command_rows(board: &Board, fields: &Fields, record: &Record) -> Vec<&'static str> {
    let drive = board.drive_of(fields.unit);
    match (record.code, fields.sgm) {
        (0x10, _) if fields.cylinder > u64::from(drive.max_cylinder) => holding([
            (true, CYLINDER),
            (u64::from(record.sector) > drive.number_of_sectors(), CYLINDER_WRAPS),
            (fields.sgm == 1, CYLINDER_LIST),
        ]),
        (0x10, _) => end_of_drive_rows(board, fields, record),
        (0x4B, 0) => end_of_memory_rows(board, record),
        (0x4B, _) if record.has_list() => holding([(sectors_in_ranges(board, record) > 0, RANGE)]),
        (0x4B, _) => vec![LIST],
        (0x90, 0) => holding([(past_memory(board, record), PROTECTED)]),
        _ => Vec::new(),
    }
}

/// The data would end past memory if it were one range.
fn past_memory(board: &Board, record: &Record) -> bool {
    !board.in_memory(u64::from(record.data), record.data_bytes())
}

/// How many bytes of memory there are from an address on.
fn bytes_from(board: &Board, address: u32) -> u64 {
    board.memory_bytes().saturating_sub(u64::from(address))
}

fn end_of_drive_rows(board: &Board, fields: &Fields, record: &Record) -> Vec<&'static str> {
    let drive = board.drive_of(fields.unit);
    let fitted = drive.number_of_sectors() - u64::from(record.sector);
    let listed = fields.sgm == 1;
    let both = !listed && past_memory(board, record);
    let in_memory = bytes_from(board, record.data) / SECTOR_BYTES;
    holding([
        (fitted < 255, DRIVE_FEW),
        (fitted == 255, DRIVE_255),
        (fitted > 255, DRIVE_OVER),
        (fitted % 256 == 0, DRIVE_CUT),
        ((fields.count - fitted).min(255) != fitted.min(255), DRIVE_REST),
        (listed, DRIVE_LIST),
        (listed && fitted > 255, DRIVE_LIST_OVER),
        (fields.command == 1 && drive.protected, DRIVE_PROTECTED),
        (both, BOTH_ENDS),
        (both && in_memory != fitted.min(255), BOTH_OTHER),
    ])
}

fn end_of_memory_rows(board: &Board, record: &Record) -> Vec<&'static str> {
    let address = u64::from(record.data);
    let left = bytes_from(board, record.data);
    let fitted = left / SECTOR_BYTES;
    let inside = address < board.memory_bytes();
    holding([
        (fitted > 0, MEMORY_FEW),
        (fitted >= 127, MEMORY_127),
        (inside && fitted == 0, MEMORY_BEFORE),
        (address == board.memory_bytes(), MEMORY_AT),
        (address > board.memory_bytes(), MEMORY_PAST),
        (fitted > 0 && left % SECTOR_BYTES == 0, MEMORY_EVEN),
        (left % SECTOR_BYTES == SECTOR_BYTES - 1, MEMORY_ONE_LESS),
        (left % SECTOR_BYTES == 1, MEMORY_ONE_MORE),
        ((u64::from(record.count) - fitted).min(255) != fitted, MEMORY_REST),
    ])
}

/// How many whole sectors lie, at the start of the ranges laid end to end, in
/// memory; or after the address of the range that does not.
fn sectors_in_ranges(board: &Board, record: &Record) -> u64 {
    let mut bytes = 0;
    for range in record.data_ranges() {
        if !range.in_memory(board) {
            return (bytes / SECTOR_BYTES).max(bytes_from(board, range.address) / SECTOR_BYTES);
        }
        bytes += u64::from(range.length);
    }
    bytes / SECTOR_BYTES
}

/// The rows of a step, where it closes its command; memory and record are those
/// before the step.
pub fn step_rows(board: &Board, record: &Record) -> Vec<&'static str> {
    if record.remaining() != 1 {
        return Vec::new();
    }
    let now = fields_at(board, u64::from(record.iopb));
    let told = record.fitted != 0;
    let quiet = record.code == 0 && !record.is_transfer();
    let other_code = ![0x00, 0x10, 0x4B].contains(&record.code);
    let mut rows = holding([
        (!told && now.internal != 0, CLOSE_NONE),
        (told && record.code == 0x10, CLOSE_DRIVE),
        (told && record.code == 0x4B, CLOSE_MEMORY),
        (told && record.is_transfer(), CLOSE_MOVED),
        (told && quiet, CLOSE_QUIET),
        (told && other_code, CLOSE_OTHER),
        (told && record.has_list(), CLOSE_LIST),
        (told && now.internal != u64::from(record.fitted), CLOSE_BYTE),
    ]);
    // Of a record that no walk made, memory seldom tells the same.
    let ends = record.code == 0x10 || record.code == 0x4B;
    if ends && find(board, u64::from(record.iopb), &now).fitted != record.fitted {
        rows.push(CLOSE_CHANGED);
    }
    rows
}

/// The rows of a walk: what it did to numbers in the table.
pub fn walk_rows(
    before: &[Record],
    after: &[Record],
    number: u8,
    commands: u64,
) -> Vec<&'static str> {
    let told = |records: &[Record]| records.iter().any(|record| record.fitted != 0);
    if number != 0 {
        return holding([(told(after), REFUSED)]);
    }
    let own = commands as usize;
    let made_zero = before.iter().zip(after).any(|(old, new)| old.fitted != 0 && new.fitted == 0);
    holding([(told(&after[own..]), KEPT), (made_zero, SET)])
}

/// The row of a call that got 0 though a record in use has a number with a code
/// that tells none.
pub fn call_rows(in_use: &[Record], word: &str) -> Vec<String> {
    let strange = |record: &Record| record.fitted != 0 && ![0x10, 0x4B].contains(&record.code);
    if in_use.iter().any(strange) {
        vec![not_refused(word)]
    } else {
        Vec::new()
    }
}
