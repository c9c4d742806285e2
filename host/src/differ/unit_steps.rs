//! Rows of the counts for several units where steps are taken or refused: on which unit a sector moved,
//! by whose drive byte 2 was posted, when sectors of the same number made a pick wait and when they did
//! not, and what of a record's unit gave 9.

use crate::declared::UNITS;
use crate::differ::call::{Call, Reply};
use crate::differ::unit_rows::chosen;
use second::board::Board;
use second::conflict::{conflict, meet, sectors, touched};
use second::iopb::view;
use second::record::{causes, Cause, Record};

const FAR: &str = "pick moves a sector that unit 0 has not";
const POSTS_13: &str = "pick posts 13, unit 0 is not protected";
const POSTS_03: &str = "pick posts 03, unit 0 is protected";
const POSTS_LENT: &str = "pick posts 03 on an absent unit whose lent mark is set";
const POSTS_ABOVE: &str = "pick posts 03 on a unit above 3";
const POSTS_LATE: &str = "pick posts byte 2, the unit in memory would give another";
const PASSES: &str = "pick passes the same sectors of another unit";
const WAITS_DATA: &str = "pick waits for a command of another unit";
const WAITS_BOTH: &str = "pick waits for a command of another unit, of the same sectors";
const ABSENT_9: &str = "number 9 for an absent unit of 0 to 3, alone";
const LENT_9: &str = "number 9 for an absent unit alone, by what is lent it would do";
const ABOVE_9: &str = "number 9 for a unit above 3, alone";
const CUT_9: &str = "number 9 for a unit above 3 alone, that of the low two bits is there";
const SECTORS_9: &str = "number 9 for sectors outside alone, unit 0 would have them";
const PROTECTED_9: &str = "number 9 for a write alone, unit 0 is not protected";
const STILL_0: &str = "not 9, what is no transfer names an absent unit of 0 to 3";
const STILL_ABOVE_0: &str = "not 9, what is no transfer names a unit above 3";
const SECTORS_0: &str = "not 9, a transfer whose sectors unit 0 has not";
const PROTECTED_0: &str = "not 9, a write where unit 0 is protected";

const ROWS: [&str; 19] = [
    FAR,
    POSTS_13,
    POSTS_03,
    POSTS_LENT,
    POSTS_ABOVE,
    POSTS_LATE,
    PASSES,
    WAITS_DATA,
    WAITS_BOTH,
    ABSENT_9,
    LENT_9,
    ABOVE_9,
    CUT_9,
    SECTORS_9,
    PROTECTED_9,
    STILL_0,
    STILL_ABOVE_0,
    SECTORS_0,
    PROTECTED_0,
];

fn reads_row(unit: usize) -> String {
    format!("pick reads a sector of unit {unit}")
}

fn writes_row(unit: usize) -> String {
    format!("pick writes a sector of unit {unit}")
}

fn waits_row(unit: usize) -> String {
    format!("pick waits for sectors of unit {unit}")
}

/// All rows, in the order in which they are printed.
pub fn all_rows() -> Vec<String> {
    let units = [reads_row, writes_row, waits_row];
    let units = units.into_iter().flat_map(|row| (0..UNITS).map(row));
    units.chain(ROWS.map(String::from)).collect()
}

/// The rows of a call on this ground, both as the call left them.
pub fn rows(call: &Call, reply: &Reply, ground: &Board, table: &[Record]) -> Vec<String> {
    let Some(commands) = call.commands() else { return Vec::new() };
    let mut rows = match reply.number() {
        1 => Vec::new(),
        9 => nine_rows(ground, table, commands),
        _ => sound_rows(ground, &table[..commands]),
    };
    match (call, reply.number()) {
        (Call::Pick { place, .. }, 0) => {
            rows.extend(step_rows(ground, &table[*place]));
            rows.extend(chosen([(passed(&table[..=*place]), PASSES)]));
        }
        (Call::Pick { place, .. }, 6) => rows.extend(waiting_rows(&table[..=*place])),
        _ => {}
    }
    rows
}

/// Whether the drive of unit 0 has all sectors of a transfer.
fn first_has(ground: &Board, record: &Record) -> bool {
    let end = u64::from(record.sector) + u64::from(record.count);
    ground.unit(0).is_some_and(|unit| end <= unit.drive.number_of_sectors())
}

/// The rows of the step that a pick has taken of this command.
fn step_rows(ground: &Board, record: &Record) -> Vec<String> {
    let own = usize::from(record.unit);
    let mut rows = Vec::new();
    if record.is_transfer() {
        rows.push(if record.reads_sectors() { reads_row(own) } else { writes_row(own) });
        rows.extend(chosen([(!first_has(ground, record), FAR)]));
    }
    if !record.finished() {
        return rows;
    }
    let byte_2 = |unit: u64| if ground.drive_of(unit).protected { 0x13 } else { 0x03 };
    let posted = ground.memory[record.iopb as usize + 2];
    let (_, now) = view(ground, record.iopb.into());
    let lent_mark = ground.units.get(own).is_some_and(|unit| !unit.there && unit.drive.protected);
    rows.extend(chosen([
        (posted == 0x13 && byte_2(0) == 0x03, POSTS_13),
        (posted == 0x03 && byte_2(0) == 0x13, POSTS_03),
        (lent_mark, POSTS_LENT),
        (own >= UNITS, POSTS_ABOVE),
        (byte_2(now.unit) != posted, POSTS_LATE),
    ]));
    rows
}

/// The last of these commands with each earlier one that is not finished, where both move sectors and
/// one of them writes some.
fn pairs(commands: &[Record]) -> Vec<(&Record, &Record)> {
    let (last, earlier) = commands.split_last().expect("there is a command that was picked");
    let moving = earlier.iter().filter(|record| !record.finished() && record.is_transfer());
    let pairs = moving.map(|record| (record, last));
    let writes = |(one, last): &(&Record, &Record)| {
        last.is_transfer() && (one.writes_sectors() || last.writes_sectors())
    };
    pairs.filter(writes).collect()
}

/// Whether two commands have a sector number in common, on whatever units.
fn same_numbers(one: &Record, other: &Record) -> bool {
    let on_one = Record { unit: other.unit, ..*one };
    meet(&sectors(&on_one), &sectors(other))
}

/// Whether the last of these commands went past an earlier one of the same sectors on another unit.
fn passed(commands: &[Record]) -> bool {
    pairs(commands).iter().any(|(one, last)| one.unit != last.unit && same_numbers(one, last))
}

/// The rows of a pick that has to wait.
fn waiting_rows(commands: &[Record]) -> Vec<String> {
    let mut rows = Vec::new();
    for (one, last) in pairs(commands) {
        let other = one.unit != last.unit && conflict(&touched(one), &touched(last));
        rows.extend(chosen([(other, WAITS_DATA), (other && same_numbers(one, last), WAITS_BOTH)]));
        if meet(&sectors(one), &sectors(last)) {
            rows.push(waits_row(one.unit.into()));
        }
    }
    rows
}

/// The rows of a call that gave 9 for one thing alone.
fn nine_rows(ground: &Board, table: &[Record], commands: usize) -> Vec<String> {
    let found: Vec<Cause> = causes(ground, table, commands as u64).into_iter().collect();
    let [cause] = found[..] else { return Vec::new() };
    let transfers = || table[..commands.min(32)].iter().filter(|record| record.is_transfer());
    match cause {
        Cause::UnitAbsent => absent_rows(ground, transfers()),
        Cause::SectorsOutside => {
            chosen([(transfers().all(|record| first_has(ground, record)), SECTORS_9)])
        }
        Cause::WriteProtected => chosen([(!ground.drive_of(0).protected, PROTECTED_9)]),
        _ => Vec::new(),
    }
}

/// The rows of a call that gave 9 for transfers on absent units alone.
fn absent_rows<'a>(ground: &Board, transfers: impl Iterator<Item = &'a Record>) -> Vec<String> {
    let absent = transfers.filter(|record| ground.unit(record.unit.into()).is_none());
    let rows = absent.flat_map(|record| {
        let own = usize::from(record.unit);
        let end = u64::from(record.sector) + u64::from(record.count);
        let lent_does = ground.units.get(own).is_some_and(|unit| {
            let open = record.reads_sectors() || !unit.drive.protected;
            unit.image_right() && end <= unit.drive.number_of_sectors() && open
        });
        chosen([
            (own < UNITS, ABSENT_9),
            (lent_does, LENT_9),
            (own >= UNITS, ABOVE_9),
            (own >= UNITS && ground.unit(u64::from(record.unit & 3)).is_some(), CUT_9),
        ])
    });
    rows.collect()
}

/// The rows of a call that found the table sound: what of a unit gave no 9.
fn sound_rows(ground: &Board, in_use: &[Record]) -> Vec<String> {
    let still = |record: &&Record| !record.is_transfer();
    let absent = |record: &&Record| ground.unit(record.unit.into()).is_none();
    let below = |record: &Record| usize::from(record.unit) < UNITS;
    let moves_far = |record: &Record| record.is_transfer() && !first_has(ground, record);
    let quiet: Vec<&Record> = in_use.iter().filter(still).filter(absent).collect();
    chosen([
        (quiet.iter().any(|record| below(record)), STILL_0),
        (quiet.iter().any(|record| !below(record)), STILL_ABOVE_0),
        (in_use.iter().any(moves_far), SECTORS_0),
        (in_use.iter().any(Record::writes_sectors) && ground.drive_of(0).protected, PROTECTED_0),
    ])
}
