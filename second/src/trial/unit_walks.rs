//! The rows of the count for several drives as a walk finds them: which units
//! are there, which unit a command names, and that a board which asked unit 0, or
//! looked at two bits of the unit, would have found something else.

use crate::board::{Board, UNITS};
use crate::code::find;
use crate::iopb::Fields;
use crate::record::Record;

const ABSENT_COUNT: &str = "code 42, count zero";
const ABSENT_TWO_BITS: &str = "code 42, the unit's two low bits name one that is there";
const ABSENT_LENT: &str = "code 42, what is lent would give another code";
const ABSENT_14: &str = "code 14 on an absent unit";
const ABSENT_1E: &str = "code 1E on an absent unit";
const ABSENT_NOTHING: &str = "No Operation on an absent unit, 0 to 3";
const ABOVE_NOTHING: &str = "No Operation on a unit above 3";
const ABSENT_SECTOR: &str = "record of an absent unit, the lent drive gives another sector";
const OTHER_SECTOR: &str = "record of unit 1 to 3, the drive of unit 0 gives another sector";
const OTHER_FITTED: &str = "code 10 past the end on unit 1 to 3, unit 0 tells another number";
const HIGH_BITS: &str = "code 00 of a transfer, bits over the unit set";
const PROTECTED_OPEN: &str = "code 90 on unit 1 to 3, unit 0 open";
const OPEN_PROTECTED: &str = "write with code 00 on unit 1 to 3, unit 0 protected";
/// The codes that the drive decides.
const BY_DRIVE: [u8; 5] = [0x00, 0x10, 0x11, 0x12, 0x90];

fn there(way: u64) -> String {
    let units: Vec<String> =
        (0..UNITS).filter(|unit| way >> unit & 1 == 1).map(|unit| format!(" {unit}")).collect();
    let units = if units.is_empty() { " none".to_string() } else { units.concat() };
    format!("walk 0, units there:{units}")
}

fn absent(unit: u64) -> String {
    format!("code 42, unit {unit}")
}

fn moves(unit: u64) -> String {
    format!("code 00 of a transfer, unit {unit}")
}

fn another(code: u8) -> String {
    format!("code {code:02X} on unit 1 to 3, the drive of unit 0 gives another code")
}

/// The names of all rows of this file, in the order in which they are printed.
pub fn names() -> Vec<String> {
    let mut names: Vec<String> = (0..1 << UNITS).map(there).collect();
    names.extend((0..=7).map(absent));
    names.extend((0..UNITS).map(moves));
    names.extend(BY_DRIVE.map(another));
    let others = [ABSENT_COUNT, ABSENT_TWO_BITS, ABSENT_LENT, ABSENT_14, ABSENT_1E];
    names.extend(others.map(String::from));
    names.extend([ABSENT_NOTHING, ABOVE_NOTHING, ABSENT_SECTOR, OTHER_SECTOR].map(String::from));
    names.extend([OTHER_FITTED, HIGH_BITS, PROTECTED_OPEN, OPEN_PROTECTED].map(String::from));
    names
}

/// Those of some names that hold.
pub fn holding<const N: usize>(chosen: [(bool, &str); N]) -> Vec<String> {
    chosen.into_iter().filter(|(holds, _)| *holds).map(|(_, name)| name.to_string()).collect()
}

/// The row of an accepted walk: which units are there.
pub fn walk_rows(board: &Board) -> Vec<String> {
    let way = (0..UNITS).filter(|unit| board.unit(*unit).is_some()).map(|unit| 1 << unit).sum();
    vec![there(way)]
}

/// The rows of an accepted command.
pub fn command_rows(board: &Board, fields: &Fields, record: &Record) -> Vec<String> {
    if board.unit(fields.unit).is_none() {
        return absent_rows(board, fields, record);
    }
    let mut rows = Vec::new();
    if record.is_transfer() {
        rows.push(moves(fields.unit));
        let byte5 = board.memory[record.iopb as usize + 5];
        rows.extend(holding([(byte5 > 7, HIGH_BITS)]));
    }
    if fields.unit != 0 && board.units[0].there {
        rows.extend(by_unit_0_rows(board, fields, record));
    }
    rows
}

fn absent_rows(board: &Board, fields: &Fields, record: &Record) -> Vec<String> {
    let nothing = record.code == 0;
    let number = |place: &Fields, drive: &crate::drive::Drive| {
        drive.sector_number(place.cylinder, place.head, place.sector)
    };
    let lent = board.units.get(fields.unit as usize);
    let mut rows = holding([
        (record.code == 0x14, ABSENT_14),
        (record.code == 0x1E, ABSENT_1E),
        (nothing && fields.unit < UNITS, ABSENT_NOTHING),
        (nothing && fields.unit >= UNITS, ABOVE_NOTHING),
        (
            lent.is_some_and(|unit| number(fields, &unit.drive) != u64::from(record.sector)),
            ABSENT_SECTOR,
        ),
    ]);
    if record.code == 0x42 {
        rows.push(absent(fields.unit));
        let two_bits = fields.unit >= UNITS && board.unit(fields.unit % UNITS).is_some();
        rows.extend(holding([
            (fields.count == 0, ABSENT_COUNT),
            (two_bits, ABSENT_TWO_BITS),
            (lent.is_some() && code_if_there(board, fields, record) != 0x42, ABSENT_LENT),
        ]));
    }
    rows
}

/// The code of a command on an absent unit of 0 to 3 if that unit were there.
fn code_if_there(board: &Board, fields: &Fields, record: &Record) -> u8 {
    let mut other = board.clone();
    other.units[fields.unit as usize].there = true;
    find(&other, u64::from(record.iopb), fields).code
}

/// Of a unit that is there and is not unit 0, which is there too.
fn by_unit_0_rows(board: &Board, fields: &Fields, record: &Record) -> Vec<String> {
    let first = Fields { unit: 0, ..*fields };
    let by_first = find(board, u64::from(record.iopb), &first);
    let mut rows = Vec::new();
    if by_first.code != record.code && BY_DRIVE.contains(&record.code) {
        rows.push(another(record.code));
    }
    let sector = board.drive_of(0).sector_number(fields.cylinder, fields.head, fields.sector);
    let told = record.code == 0x10 && record.fitted != 0;
    let open = !board.drive_of(0).protected;
    rows.extend(holding([
        (sector != u64::from(record.sector), OTHER_SECTOR),
        (told && by_first.code == 0x10 && by_first.fitted != record.fitted, OTHER_FITTED),
        (record.code == 0x90 && open, PROTECTED_OPEN),
        (record.writes_sectors() && !open, OPEN_PROTECTED),
    ]));
    rows
}
