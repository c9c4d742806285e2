//! Rows of the counts for what the last head's own maximum changes. Each row is one side of a line, and
//! most of them are calls that would have come out otherwise on a drive with equal heads.

use crate::differ::call::{Call, Reply};
use second::board::{Board, Unit, IMAGE_LIMIT, SECTOR_BYTES};
use second::drive::Drive;
use second::iopb::{view, Fields};
use second::record::{causes, Cause, Record};

const SHORTER: &str = "drive with a shorter last head";
const EQUAL: &str = "drive with equal heads";
const ONE_SHORTER: &str = "drive with one head, shorter";
const ONE_EQUAL: &str = "drive with one head, equal";
const LAST_12: &str = "code 12 on the last head, within the other maximum";
const OTHER_12: &str = "code 12 on another head";
const OTHER_00: &str = "code 00 on another head, above the last one's maximum";
const LAST_00: &str = "code 00 on a shorter last head";
const END_10: &str = "code 10 past the end, equal heads would have room";
const OVER: &str = "transfer over the end of a shorter last head";
const IMAGE_1: &str = "number 1 for the image of equal heads, alone";
const SECTORS_9: &str = "number 9 for sectors that equal heads would have, alone";
const LOOK_10: &str = "look: number 10, equal heads would have it";
const PLACE_10: &str = "place: number 10, equal heads would have it";
const PLACE_0: &str = "place: number 0 on a shorter last head";

const ROWS: [&str; 15] = [
    SHORTER,
    EQUAL,
    ONE_SHORTER,
    ONE_EQUAL,
    LAST_12,
    OTHER_12,
    OTHER_00,
    LAST_00,
    END_10,
    OVER,
    IMAGE_1,
    SECTORS_9,
    LOOK_10,
    PLACE_10,
    PLACE_0,
];

/// The calls that give 1 for other things too, by the words that the counts have for them.
const WITH_OTHER_SIZES: [&str; 5] = ["walk", "pick", "run by picks", "run as written", "look"];

/// The row of a call that gave 1 for the last head's maximum and nothing else.
fn alone(word: &str) -> String {
    format!("{word}: number 1 for the last head, alone")
}

/// All rows, in the order in which they are printed.
pub fn all_rows() -> Vec<String> {
    ROWS.map(String::from).into_iter().chain(WITH_OTHER_SIZES.map(alone)).collect()
}

/// The rows of a call on this ground; after a walk its commands are at the front of the table.
pub fn rows(call: &Call, reply: &Reply, ground: &Board, table: &[Record]) -> Vec<String> {
    let equal_has = |unit: usize, sector: u32| {
        let equal = ground.units[unit].drive.as_if_equal();
        u64::from(sector) < equal.number_of_sectors()
    };
    let plain = match (call, reply, reply.number()) {
        (_, Reply::Walked(walked), 0) => walk_rows(ground, &table[..walked.commands]),
        (Call::Look { unit, sector }, _, 10) if equal_has((*unit).into(), *sector) => vec![LOOK_10],
        (Call::Place { unit, sector }, _, 10) if equal_has(*unit, *sector) => vec![PLACE_10],
        (Call::Place { unit, .. }, Reply::Placed { place, .. }, 0) => {
            let drive = &ground.units[*unit].drive;
            let on_last = shorter(drive) && drive.is_last_head(place.head);
            if on_last {
                vec![PLACE_0]
            } else {
                Vec::new()
            }
        }
        (_, _, 1) => return rows_of_one(call, ground),
        (_, _, 9) => rows_of_nine(call, ground, table),
        _ => Vec::new(),
    };
    plain.into_iter().map(String::from).collect()
}

fn shorter(drive: &Drive) -> bool {
    drive.last_head_max_sector < drive.max_sector
}

fn walk_rows(ground: &Board, records: &[Record]) -> Vec<&'static str> {
    let of_drive = |unit: &Unit| match (unit.drive.max_head, shorter(&unit.drive)) {
        (0, true) => ONE_SHORTER,
        (0, false) => ONE_EQUAL,
        (_, true) => SHORTER,
        (_, false) => EQUAL,
    };
    let mut rows: Vec<&str> = ground.present().map(of_drive).collect();
    for record in records {
        let (_, fields) = view(ground, record.iopb.into());
        let drive = &ground.drive_of(fields.unit);
        rows.extend(code_row(drive, &fields, record));
        if record.is_transfer() && shorter(drive) && over_an_end(drive, record) {
            rows.push(OVER);
        }
    }
    rows
}

/// The row of an accepted command by its code, if it has one.
fn code_row(drive: &Drive, fields: &Fields, record: &Record) -> Option<&'static str> {
    let on_last = drive.is_last_head(fields.head);
    match record.code {
        0x12 if !on_last => Some(OTHER_12),
        0x12 if fields.sector <= drive.max_sector.into() => Some(LAST_12),
        0x10 if equal_heads_have_room(drive, fields) => Some(END_10),
        0x00 if record.is_transfer() && shorter(drive) && on_last => Some(LAST_00),
        0x00 if record.is_transfer() && fields.sector > drive.last_head_max_sector.into() => {
            Some(OTHER_00)
        }
        _ => None,
    }
}

/// Whether the command would have stayed on a drive with equal heads.
fn equal_heads_have_room(drive: &Drive, fields: &Fields) -> bool {
    let equal = drive.as_if_equal();
    let first = equal.sector_number(fields.cylinder, fields.head, fields.sector);
    fields.cylinder < equal.cylinders() && first + fields.count <= equal.number_of_sectors()
}

/// Whether a transfer goes on, after the last sector of a cylinder, on the next one.
fn over_an_end(drive: &Drive, record: &Record) -> bool {
    let (first, per_cylinder) = (u64::from(record.sector), drive.sectors_per_cylinder());
    let last = first + u64::from(record.count) - 1;
    first / per_cylinder != last / per_cylinder
}

/// The rows of a call that gave 1 for one unit, where all else that this is given for is right.
fn rows_of_one(call: &Call, ground: &Board) -> Vec<String> {
    let Some((_, unit)) = call.unit_alone_wrong(ground) else { return Vec::new() };
    let equal_bytes = SECTOR_BYTES * unit.drive.as_if_equal().number_of_sectors();
    let as_equal = unit.image.len() as u64 == equal_bytes && equal_bytes <= IMAGE_LIMIT;
    match unit.drive.last_head_right() {
        false if unit.image_fits() => vec![alone(call.word())],
        true if as_equal => vec![IMAGE_1.to_string()],
        _ => Vec::new(),
    }
}

/// The row of a call that gave 9 and on equal heads would not have.
fn rows_of_nine(call: &Call, ground: &Board, table: &[Record]) -> Vec<&'static str> {
    let Some(commands) = call.commands() else { return Vec::new() };
    let found = causes(ground, table, commands as u64);
    let outside_alone = found.into_iter().eq([Cause::SectorsOutside]);
    let within_equal = |record: &Record| {
        let equal = ground.drive_of(record.unit.into()).as_if_equal();
        let end = u64::from(record.sector) + u64::from(record.count);
        !record.is_transfer() || end <= equal.number_of_sectors()
    };
    if outside_alone && table[..commands].iter().all(within_equal) {
        vec![SECTORS_9]
    } else {
        Vec::new()
    }
}
