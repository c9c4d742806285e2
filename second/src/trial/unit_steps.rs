//! The rows of the count for several drives as steps are taken or refused: on
//! which unit a sector moved, what byte 2 a close posted and by whose drive, and
//! which commands had the same sector numbers on different units.

use crate::board::{Board, SECTOR_BYTES, UNITS};
use crate::conflict::{conflict, data_bytes, meet, sectors, status_bytes, touched};
use crate::iopb::fields_at;
use crate::record::Record;
use crate::trial::unit_walks::holding;
use std::collections::{BTreeMap, BTreeSet};

const FAR: &str = "step on unit 1 to 3 of a sector that unit 0 has not";
const OTHER_BYTES: &str = "read step on unit 1 to 3, the sector of unit 0 has other bytes";
const READ_BACK: &str = "sector written and read back on its unit";
const READ_BACK_BETWEEN: &str = "sector read back, its number written on another unit since";
const CLOSE_ABSENT: &str = "close with 03 on an absent unit, 0 to 3";
const CLOSE_ABOVE: &str = "close with 03 on a unit of 4 to 7";
const CLOSE_FAR_ABOVE: &str = "close with 03 on a unit above 7";
const CLOSE_LENT: &str = "close with 03 on an absent unit whose lent mark is set";
const CLOSE_TAKEN: &str = "close on an absent unit with a code of one that was there";
const CLOSE_MOVED_ON: &str = "close, the IOPB now names a unit that gives another byte 2";
/// What a command did that closes.
const KINDS: [&str; 3] = ["No Operation", "failed command", "transfer"];
const PAST_READ: &str = "step of a read past a write of the same numbers on another unit";
const PAST_WRITE: &str = "step of a write past a read of the same numbers on another unit";
const PAST_WRITES: &str = "step of a write past a write of the same numbers on another unit";
const SIX_OTHER: &str = "pick 6 of commands with the same numbers on different units";
const SIX_DATA: &str = "pick 6 by data of different units, alone";
const SIX_STATUS: &str = "pick 6 by data and status of different units, alone";

fn read_step(unit: u64) -> String {
    format!("read step on unit {unit}")
}

fn write_step(unit: u64) -> String {
    format!("write step on unit {unit}")
}

fn posted(byte: u8, unit: u64) -> String {
    format!("close with {byte:02X} on unit {unit}")
}

fn own(byte: u8, kind: &str) -> String {
    format!("close with {byte:02X}, unit 0 gives the other, {kind}")
}

fn six_on(unit: u64) -> String {
    format!("pick 6 by sectors of unit {unit}, alone")
}

/// The names of all rows of this file, in the order in which they are printed.
pub fn names() -> Vec<String> {
    let mut names: Vec<String> = (0..UNITS).map(read_step).collect();
    names.extend((0..UNITS).map(write_step));
    names.extend([FAR, OTHER_BYTES, READ_BACK, READ_BACK_BETWEEN].map(String::from));
    names.extend((0..UNITS).map(|unit| posted(0x13, unit)));
    names.extend((0..UNITS).map(|unit| posted(0x03, unit)));
    names.extend(KINDS.map(|kind| own(0x13, kind)));
    names.extend(KINDS.map(|kind| own(0x03, kind)));
    names.extend([CLOSE_ABSENT, CLOSE_ABOVE, CLOSE_FAR_ABOVE, CLOSE_LENT].map(String::from));
    names.extend([CLOSE_TAKEN, CLOSE_MOVED_ON].map(String::from));
    names.extend([PAST_READ, PAST_WRITE, PAST_WRITES, SIX_OTHER].map(String::from));
    names.extend((0..UNITS).map(six_on));
    names.extend([SIX_DATA, SIX_STATUS].map(String::from));
    names
}

/// The rows of a step that is about to be taken.
pub fn step_rows(board: &Board, record: &Record) -> Vec<String> {
    let mut rows = if record.is_transfer() { move_rows(board, record) } else { Vec::new() };
    if record.remaining() == 1 {
        rows.extend(close_rows(board, record));
    }
    rows
}

fn move_rows(board: &Board, record: &Record) -> Vec<String> {
    let unit = u64::from(record.unit);
    let read = record.reads_sectors();
    let mut rows = vec![if read { read_step(unit) } else { write_step(unit) }];
    if unit == 0 {
        return rows;
    }
    let from = (SECTOR_BYTES * (u64::from(record.sector) + u64::from(record.taken))) as usize;
    let bytes = |unit: usize| {
        let image = &board.units[unit].image;
        image.get(from..from + SECTOR_BYTES as usize)
    };
    let (here, there) = (bytes(record.unit.into()), bytes(0));
    rows.extend(holding([
        (there.is_none(), FAR),
        (read && there.is_some() && there != here, OTHER_BYTES),
    ]));
    rows
}

fn close_rows(board: &Board, record: &Record) -> Vec<String> {
    let byte_2 = |unit: u64| if board.drive_of(unit).protected { 0x13 } else { 0x03 };
    let unit = u64::from(record.unit);
    let (byte, now) = (byte_2(unit), fields_at(board, u64::from(record.iopb)));
    let here = board.unit(unit).is_some();
    let lent = board.units.get(unit as usize).is_some_and(|unit| unit.drive.protected);
    let walked_there = ![0x00, 0x14, 0x1E, 0x42].contains(&record.code);
    let mut rows = holding([
        (!here && unit < UNITS, CLOSE_ABSENT),
        ((UNITS..8).contains(&unit), CLOSE_ABOVE),
        (unit >= 8, CLOSE_FAR_ABOVE),
        (!here && lent, CLOSE_LENT),
        (!here && walked_there, CLOSE_TAKEN),
        (byte_2(now.unit) != byte, CLOSE_MOVED_ON),
    ]);
    if here {
        rows.push(posted(byte, unit));
    }
    if byte != byte_2(0) {
        let kind = match record.code {
            0 if record.is_transfer() => KINDS[2],
            0 => KINDS[0],
            _ => KINDS[1],
        };
        rows.push(own(byte, kind));
    }
    rows
}

/// The sectors that a case has written, each with when it was.
#[derive(Default)]
pub struct Moved {
    written: BTreeMap<(u8, u64), u64>,
    steps: u64,
}

impl Moved {
    /// The rows of a step that is about to be taken, which is noted too.
    pub fn step_rows(&mut self, record: &Record) -> Vec<String> {
        self.steps += 1;
        let sector = u64::from(record.sector) + u64::from(record.taken);
        if record.writes_sectors() {
            self.written.insert((record.unit, sector), self.steps);
        }
        let last = self.written.get(&(record.unit, sector));
        let (true, Some(last)) = (record.reads_sectors(), last) else {
            return Vec::new();
        };
        let others = (0..UNITS as u8).filter_map(|unit| self.written.get(&(unit, sector)));
        holding([(true, READ_BACK), (others.max() > Some(last), READ_BACK_BETWEEN)])
    }
}

/// The two name the same sector numbers on different units, and one writes.
fn same_numbers(one: &Record, other: &Record) -> bool {
    let numbers = |record: &Record| -> BTreeSet<u64> {
        sectors(record).into_iter().map(|(_, number)| number).collect()
    };
    one.unit != other.unit
        && (one.writes_sectors() || other.writes_sectors())
        && meet(&numbers(one), &numbers(other))
}

/// The rows of a pick that got 0 with unfinished commands before it.
pub fn past_rows(earlier: &[Record], picked: &Record) -> Vec<String> {
    let passed: Vec<&Record> =
        earlier.iter().filter(|record| same_numbers(record, picked)).collect();
    let some = |wrote: bool| passed.iter().any(|record| record.writes_sectors() == wrote);
    holding([
        (picked.reads_sectors() && some(true), PAST_READ),
        (picked.writes_sectors() && some(false), PAST_WRITE),
        (picked.writes_sectors() && some(true), PAST_WRITES),
    ])
}

/// The rows of a pick that got 6, with the unfinished commands before it.
pub fn conflict_rows(earlier: &[Record], picked: &Record) -> Vec<String> {
    let in_the_way: Vec<&Record> =
        earlier.iter().filter(|record| conflict(&touched(record), &touched(picked))).collect();
    let mut rows =
        holding([(in_the_way.iter().any(|record| same_numbers(record, picked)), SIX_OTHER)]);
    let data = |record: &Record| {
        let written = record.reads_sectors() || picked.reads_sectors();
        written && meet(&data_bytes(record), &data_bytes(picked))
    };
    let status = |record: &Record| meet(&status_bytes(record), &status_bytes(picked));
    let both = |record: &Record| {
        meet(&status_bytes(record), &data_bytes(picked))
            || meet(&data_bytes(record), &status_bytes(picked))
    };
    let all = |holds: &dyn Fn(&Record) -> bool| in_the_way.iter().all(|record| holds(record));
    let other_unit = |record: &Record| {
        record.unit != picked.unit && record.is_transfer() && picked.is_transfer()
    };
    if all(&|record| !data(record) && !both(record) && !status(record)) {
        rows.push(six_on(u64::from(picked.unit)));
    }
    rows.extend(holding([
        (all(&|record| other_unit(record) && data(record) && !both(record)), SIX_DATA),
        (all(&|record| other_unit(record) && both(record) && !data(record)), SIX_STATUS),
    ]));
    rows
}
