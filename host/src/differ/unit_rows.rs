//! Rows of the counts for several units at the walk, at looks and where number 1 is asked for: which
//! units were there, whose drive gave a code, and what was not refused for an absent unit.

use crate::declared::UNITS;
use crate::differ::call::{Call, Reply};
use second::board::Board;
use second::code::find;
use second::iopb::{view, Fields};
use second::record::Record;

const WRITE_90: &str = "code 90, unit 0 is not protected";
const WRITE_00: &str = "code 00 of a write, unit 0 is protected";
const OTHER_CODE: &str = "code of a unit that is there, unit 0 would give another";
const OTHER_FITTED: &str = "code 10 past the end, unit 0 would tell another number";
const OTHER_NUMBER: &str = "first sector's number, unit 0 would give another";
const LENT_NUMBER: &str = "first sector's number on an absent unit, not by what is lent";
const STILL_BELOW: &str = "code 00 of a No Operation on an absent unit of 0 to 3";
const STILL_ABOVE: &str = "code 00 of a No Operation on a unit above 3";
const NO_COUNT_42: &str = "code 42 with a count of 0";
const WRITE_42: &str = "code 42 of a write, the mark that is lent is set";
const CUT_42: &str = "code 42 above 3, the unit of the low two bits is there";
const OTHER_BITS: &str = "code 00 of a transfer, other bits of byte 5 set";
const LOOK_ABOVE: &str = "look: number 11 on a unit above 3";
const LOOK_CUT: &str = "look: number 11 above 3, the unit of the low two bits has it";
const LOOK_11_FAR: &str = "look: number 11, and no such sector either";
const LOOK_1_FIRST: &str = "look: number 1 at an absent unit";
const LOOK_1_OTHER: &str = "look: number 1 for another unit alone";
const LOOK_10_OTHER: &str = "look: number 10, unit 0 has such a sector";
const LOOK_0_OTHER: &str = "look: number 0, unit 0 has no such sector";

const ROWS: [&str; 19] = [
    WRITE_90,
    WRITE_00,
    OTHER_CODE,
    OTHER_FITTED,
    OTHER_NUMBER,
    LENT_NUMBER,
    STILL_BELOW,
    STILL_ABOVE,
    NO_COUNT_42,
    WRITE_42,
    CUT_42,
    OTHER_BITS,
    LOOK_ABOVE,
    LOOK_CUT,
    LOOK_11_FAR,
    LOOK_1_FIRST,
    LOOK_1_OTHER,
    LOOK_10_OTHER,
    LOOK_0_OTHER,
];

/// The calls that ask for the sizes of images.
const WITH_SIZES: [&str; 5] = ["walk", "pick", "run by picks", "run as written", "look"];

/// Which units are there: a digit for each that is, a line for each that is not.
fn there_row(there: [bool; UNITS]) -> String {
    let letters = there.iter().enumerate();
    let word = letters.map(|(k, there)| if *there { k.to_string() } else { "-".to_string() });
    format!("walk: number 0, units there: {}", word.collect::<String>())
}

fn moves_row(unit: usize) -> String {
    format!("code 00 of a transfer on unit {unit}")
}

fn absent_row(unit: usize) -> String {
    format!("code 42 on unit {unit}")
}

fn look_row(number: u8, unit: usize) -> String {
    format!("look: number {number} on unit {unit}")
}

fn one_row(unit: usize) -> String {
    format!("number 1 for unit {unit}, alone")
}

fn not_one_row(word: &str) -> String {
    format!("{word}: not 1, an absent unit's image is not right")
}

fn not_last_row(word: &str) -> String {
    format!("{word}: not 1, an absent unit's last head is too long")
}

/// All rows, in the order in which they are printed.
pub fn all_rows() -> Vec<String> {
    let ways = (0..1 << UNITS).map(|way| there_row(std::array::from_fn(|k| way >> k & 1 == 1)));
    let looks =
        [0, 10, 11].into_iter().flat_map(|number| (0..UNITS).map(move |k| look_row(number, k)));
    ways.chain((0..UNITS).map(moves_row))
        .chain((0..8).map(absent_row))
        .chain(looks)
        .chain((0..UNITS).map(one_row))
        .chain(WITH_SIZES.map(not_one_row))
        .chain(WITH_SIZES.map(not_last_row))
        .chain(ROWS.map(String::from))
        .collect()
}

/// Those of some rows that hold.
pub fn chosen<const N: usize>(rows: [(bool, &str); N]) -> Vec<String> {
    rows.into_iter().filter(|(holds, _)| *holds).map(|(_, row)| row.to_string()).collect()
}

/// The rows of a call on this ground; after a walk its commands are at the front of the table.
pub fn rows(call: &Call, reply: &Reply, ground: &Board, table: &[Record]) -> Vec<String> {
    let mut rows = size_rows(call, reply.number(), ground);
    match (call, reply) {
        (_, Reply::Walked(walked)) if walked.number == 0 => {
            rows.push(there_row(ground.units.each_ref().map(|unit| unit.there)));
            rows.extend(table[..walked.commands].iter().flat_map(|r| walked_rows(ground, r)));
        }
        (Call::Look { unit, sector }, _) => {
            rows.extend(look_rows(call, ground, *unit, *sector, reply.number()));
        }
        _ => {}
    }
    rows
}

/// The rows of a call that asks for the sizes of images, by its number.
fn size_rows(call: &Call, number: u8, ground: &Board) -> Vec<String> {
    if call.others_right(ground).is_none() {
        return Vec::new();
    }
    if number == 1 {
        return call.unit_alone_wrong(ground).map(|(unit, _)| one_row(unit)).into_iter().collect();
    }
    let absent = || ground.units.iter().filter(|unit| !unit.there);
    let mut rows = Vec::new();
    if absent().any(|unit| !unit.image_fits()) {
        rows.push(not_one_row(call.word()));
    }
    if absent().any(|unit| unit.image_fits() && !unit.drive.last_head_right()) {
        rows.push(not_last_row(call.word()));
    }
    rows
}

/// The rows of a command that a walk accepted.
fn walked_rows(ground: &Board, record: &Record) -> Vec<String> {
    let (_, fields) = view(ground, record.iopb.into());
    let unit = fields.unit as usize;
    let mut rows = match (ground.unit(fields.unit), record.code) {
        (Some(_), _) => there_rows(ground, record, &fields),
        (None, 0x42) => {
            let mut rows = vec![absent_row(unit)];
            rows.extend(absent_rows(ground, &fields));
            rows
        }
        (None, _) => {
            let still = record.code == 0;
            chosen([(still && unit < UNITS, STILL_BELOW), (still && unit >= UNITS, STILL_ABOVE)])
        }
    };
    let number_on = |unit: usize| {
        let drive = &ground.units[unit].drive;
        drive.sector_number(fields.cylinder, fields.head, fields.sector) as u32
    };
    let here = ground.unit(fields.unit).is_some();
    rows.extend(chosen([
        (here && number_on(0) != record.sector, OTHER_NUMBER),
        (!here && unit < UNITS && number_on(unit) != record.sector, LENT_NUMBER),
    ]));
    rows
}

/// The rows of a command on a unit that is there.
fn there_rows(ground: &Board, record: &Record, fields: &Fields) -> Vec<String> {
    let unit = fields.unit as usize;
    let byte_5 = ground.memory[record.iopb as usize + 5];
    let by_first = find(ground, record.iopb.into(), &Fields { unit: 0, ..*fields });
    let first_protected = ground.drive_of(0).protected;
    let mut rows = chosen([
        (record.code == 0x90 && !first_protected, WRITE_90),
        (record.writes_sectors() && first_protected, WRITE_00),
        (by_first.code != record.code, OTHER_CODE),
        (
            record.code == 0x10 && by_first.code == 0x10 && by_first.fitted != record.fitted,
            OTHER_FITTED,
        ),
        (record.is_transfer() && byte_5 > 7, OTHER_BITS),
    ]);
    if record.is_transfer() {
        rows.push(moves_row(unit));
    }
    rows
}

/// The rows of a command with code 42.
fn absent_rows(ground: &Board, fields: &Fields) -> Vec<String> {
    let unit = fields.unit as usize;
    let lent_mark = ground.units.get(unit).is_some_and(|unit| unit.drive.protected);
    chosen([
        (fields.count == 0, NO_COUNT_42),
        (fields.command == 1 && lent_mark, WRITE_42),
        (unit >= UNITS && ground.unit(fields.unit & 3).is_some(), CUT_42),
    ])
}

/// The rows of a look, by its number.
fn look_rows(call: &Call, ground: &Board, unit: u8, sector: u32, number: u8) -> Vec<String> {
    let has = |unit: u8| {
        let drive = ground.unit(unit.into()).map(|unit| unit.drive);
        drive.is_some_and(|drive| u64::from(sector) < drive.number_of_sectors())
    };
    let own = usize::from(unit);
    let absent = ground.unit(unit.into()).is_none();
    let alone = call.unit_alone_wrong(ground).map(|(wrong, _)| wrong);
    let mut rows = chosen([
        (number == 11 && own >= UNITS, LOOK_ABOVE),
        (number == 11 && own >= UNITS && has(unit & 3), LOOK_CUT),
        (number == 11 && !(0..UNITS as u8).any(has), LOOK_11_FAR),
        (number == 1 && absent, LOOK_1_FIRST),
        (number == 1 && !absent && alone.is_some_and(|wrong| wrong != own), LOOK_1_OTHER),
        (number == 10 && has(0), LOOK_10_OTHER),
        (number == 0 && !has(0), LOOK_0_OTHER),
    ]);
    if number != 1 && own < UNITS {
        rows.push(look_row(number, own));
    }
    rows
}
