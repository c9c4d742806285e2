//! The rows of the count for several drives where calls are refused or taken as
//! a whole: number 1 by a unit's image, what is lent for an absent unit, number 9
//! by a unit, and looks at each unit.

use crate::board::{Board, Unit, IMAGE_LIMIT, UNITS};
use crate::record::{Cause, Record};
use crate::trial::last_head::REFUSED_BY_ONE;
use crate::trial::unit_walks::holding;
use std::collections::BTreeSet;

const OVER_LIMIT: &str = "refused 1: image of unit 1 to 3 over its limit, alone";
const LENT_LIMIT: &str = "call not refused by 1, an absent unit lent an image over its limit";
const LENT_LAST: &str = "call not refused by 1, an absent unit's last maximum above the other";
const NINE_ABOVE: &str = "refused 9: transfer on a unit of 4 to 7, alone";
const NINE_FAR_ABOVE: &str = "refused 9: transfer on a unit above 7, alone";
const NINE_BITS: [(u64, &str); 2] = [
    (4, "refused 9: the unit's two low bits name one that is there, alone"),
    (8, "refused 9: the unit's three low bits name one that is there, alone"),
];
const NINE_SECTORS: &str = "refused 9: sectors outside unit 1 to 3, unit 0 has them, alone";
const NINE_WRITE: &str = "refused 9: write to protected unit 1 to 3, unit 0 open, alone";
const CALL_SECTORS: &str = "call 0 with sectors of unit 1 to 3 that unit 0 has not";
const CALL_WRITE: &str = "call 0 with a write on open unit 1 to 3, unit 0 protected";
const CALL_NO_UNIT_0: &str = "call 0 with a transfer on unit 1 to 3, unit 0 absent";
const CALL_ABSENT: &str = "call 0 with no transfer on an absent unit, 0 to 3";
const CALL_ABOVE: &str = "call 0 with no transfer on a unit of 4 to 7";
const CALL_FAR_ABOVE: &str = "call 0 with no transfer on a unit above 7";
const LOOK_ABOVE: &str = "look 11 at a unit of 4 to 7";
const LOOK_FAR_ABOVE: &str = "look 11 at a unit above 7";
const LOOK_TWO_BITS: &str = "look 11, the unit's two low bits name one that is there";
const LOOK_NOWHERE: &str = "look 11 at a sector that no drive has";
const LOOK_LENT: &str = "look 11 at a sector that the lent image has";
const LOOK_1_OTHER: &str = "look 1 at a unit that is right";
const LOOK_1_ABSENT: &str = "look 1 at an absent unit";
const LOOK_10_OTHER: &str = "look 10 at unit 1 to 3, unit 0 has the sector";
const LOOK_0_OTHER: &str = "look 0 at unit 1 to 3, unit 0 has not the sector";

fn wrong_image(unit: u64) -> String {
    format!("refused 1: image of unit {unit}, alone")
}

fn wrong_last(unit: u64) -> String {
    format!("refused 1: last maximum of unit {unit}, alone")
}

fn wrong_unit(word: &str) -> String {
    format!("{word} 1: unit 1 to 3 alone")
}

fn lent_wrong(word: &str) -> String {
    format!("{word} not 1, a wrong image lent for an absent unit")
}

fn lent_for(unit: u64) -> String {
    format!("call not refused by 1, a wrong image lent for absent unit {unit}")
}

fn nine_absent(unit: u64) -> String {
    format!("refused 9: transfer on absent unit {unit}, alone")
}

fn looked(number: u8, unit: u64) -> String {
    format!("look {number} at unit {unit}")
}

/// The names of all rows of this file, in the order in which they are printed.
pub fn names() -> Vec<String> {
    let mut names: Vec<String> = (0..UNITS).map(wrong_image).collect();
    names.extend((0..UNITS).map(wrong_last));
    names.push(OVER_LIMIT.to_string());
    names.extend(REFUSED_BY_ONE.map(wrong_unit));
    names.extend(REFUSED_BY_ONE.map(lent_wrong));
    names.extend((0..UNITS).map(lent_for));
    names.extend([LENT_LIMIT, LENT_LAST].map(String::from));
    names.extend((0..UNITS).map(nine_absent));
    names.extend([NINE_ABOVE, NINE_FAR_ABOVE].map(String::from));
    names.extend(NINE_BITS.map(|(_, name)| name.to_string()));
    names.extend([NINE_SECTORS, NINE_WRITE, CALL_SECTORS, CALL_WRITE].map(String::from));
    names.extend([CALL_NO_UNIT_0, CALL_ABSENT, CALL_ABOVE, CALL_FAR_ABOVE].map(String::from));
    for number in [0, 10, 11] {
        names.extend((0..UNITS).map(|unit| looked(number, unit)));
    }
    names.extend([LOOK_ABOVE, LOOK_FAR_ABOVE, LOOK_TWO_BITS].map(String::from));
    names.extend([LOOK_NOWHERE, LOOK_LENT, LOOK_1_OTHER, LOOK_1_ABSENT].map(String::from));
    names.extend([LOOK_10_OTHER, LOOK_0_OTHER].map(String::from));
    names
}

/// The rows of a call that got 1, for a unit that is there; `others_right` says
/// that everything but its drive and image was right.
pub fn refused_one_rows(unit: &Unit, number: u64, word: &str, others_right: bool) -> Vec<String> {
    if !others_right || unit.image_right() {
        return Vec::new();
    }
    let mut rows = Vec::new();
    if unit.drive.last_head_right() {
        rows.push(wrong_image(number));
    } else if unit.image_fits() {
        rows.push(wrong_last(number));
    }
    if number != 0 {
        rows.push(wrong_unit(word));
        let over = unit.image.len() as u64 > IMAGE_LIMIT;
        rows.extend(holding([(over && unit.drive.last_head_right(), OVER_LIMIT)]));
    }
    rows
}

/// The rows of a call that did not get 1 though something wrong is lent for an
/// absent unit.
pub fn not_one_rows(board: &Board, word: &str) -> Vec<String> {
    let lent: Vec<(usize, &Unit)> = board
        .units
        .iter()
        .enumerate()
        // An empty image and a drive of zeros is what is lent where nothing is.
        .filter(|(_, unit)| !unit.there && !unit.image_right() && **unit != Unit::default())
        .collect();
    let mut rows: Vec<String> = lent.iter().map(|(k, _)| lent_for(*k as u64)).collect();
    rows.extend(holding([
        (lent.iter().any(|(_, unit)| unit.image.len() as u64 > IMAGE_LIMIT), LENT_LIMIT),
        (lent.iter().any(|(_, unit)| !unit.drive.last_head_right()), LENT_LAST),
    ]));
    if !lent.is_empty() {
        rows.push(lent_wrong(word));
    }
    rows
}

/// The first sector past the last one of a record.
fn end(record: &Record) -> u64 {
    u64::from(record.sector) + u64::from(record.count)
}

/// The rows of a table that got 9 for one cause alone.
pub fn refused_nine_rows(board: &Board, in_use: &[Record], found: &BTreeSet<Cause>) -> Vec<String> {
    let moving = || in_use.iter().filter(|record| record.is_transfer());
    let drive = |record: &Record| board.drive_of(record.unit.into());
    if *found == BTreeSet::from([Cause::UnitAbsent]) {
        let absent = moving().filter(|record| board.unit(record.unit.into()).is_none());
        let units: BTreeSet<u64> = absent.map(|record| u64::from(record.unit)).collect();
        let in_bits = |of: u64| units.iter().all(|unit| board.unit(unit % of).is_some());
        let mut rows: Vec<String> =
            units.iter().filter(|unit| **unit < UNITS).map(|unit| nine_absent(*unit)).collect();
        rows.extend(holding([
            (units.range(UNITS..8).next().is_some(), NINE_ABOVE),
            (units.range(8..).next().is_some(), NINE_FAR_ABOVE),
        ]));
        rows.extend(holding(NINE_BITS.map(|(of, name)| (in_bits(of), name))));
        return rows;
    }
    let first = board.drive_of(0);
    let fits = |record: &Record| end(record) <= first.number_of_sectors();
    let outside = |record: &&Record| end(record) > drive(record).number_of_sectors();
    let on_protected = |record: &Record| record.writes_sectors() && drive(record).protected;
    holding([
        (
            *found == BTreeSet::from([Cause::SectorsOutside]) && moving().filter(outside).all(fits),
            NINE_SECTORS,
        ),
        (
            *found == BTreeSet::from([Cause::WriteProtected])
                && !first.protected
                && moving().any(on_protected),
            NINE_WRITE,
        ),
    ])
}

/// The rows of a call on the table that got 0.
pub fn call_rows(board: &Board, in_use: &[Record]) -> Vec<String> {
    let first = board.drive_of(0);
    let moves = |holds: &dyn Fn(&Record) -> bool| {
        in_use.iter().any(|record| record.is_transfer() && record.unit != 0 && holds(record))
    };
    let rests = |holds: &dyn Fn(u64) -> bool| {
        in_use.iter().any(|record| !record.is_transfer() && holds(record.unit.into()))
    };
    let here = board.units[0].there;
    holding([
        (here && moves(&|record| end(record) > first.number_of_sectors()), CALL_SECTORS),
        (moves(&|record| record.writes_sectors() && first.protected), CALL_WRITE),
        (!here && moves(&|_| true), CALL_NO_UNIT_0),
        (rests(&|unit| unit < UNITS && board.unit(unit).is_none()), CALL_ABSENT),
        (rests(&|unit| (UNITS..8).contains(&unit)), CALL_ABOVE),
        (rests(&|unit| unit >= 8), CALL_FAR_ABOVE),
    ])
}

/// The rows of a look at a unit, with its number.
pub fn look_rows(board: &Board, unit: u64, sector: u64, number: u8) -> Vec<String> {
    let here = board.unit(unit);
    let first = board.unit(0).map(|unit| unit.drive.number_of_sectors());
    let in_first = first.is_some_and(|sectors| sector < sectors);
    let mut rows = match number {
        1 => holding([
            (here.is_some_and(Unit::image_right), LOOK_1_OTHER),
            (here.is_none(), LOOK_1_ABSENT),
        ]),
        10 => holding([(unit != 0 && in_first, LOOK_10_OTHER)]),
        11 => look_absent_rows(board, unit, sector),
        _ => holding([(unit != 0 && first.is_some() && !in_first, LOOK_0_OTHER)]),
    };
    if number != 1 && unit < UNITS {
        rows.push(looked(number, unit));
    }
    rows
}

fn look_absent_rows(board: &Board, unit: u64, sector: u64) -> Vec<String> {
    let nowhere = board.units.iter().all(|unit| sector >= unit.drive.number_of_sectors());
    let lent = board.units.get(unit as usize).map_or(0, |unit| unit.image.len() as u64);
    holding([
        ((UNITS..8).contains(&unit), LOOK_ABOVE),
        (unit >= 8, LOOK_FAR_ABOVE),
        (unit >= UNITS && board.unit(unit % UNITS).is_some(), LOOK_TWO_BITS),
        (nowhere, LOOK_NOWHERE),
        (512 * (sector + 1) <= lent, LOOK_LENT),
    ])
}
