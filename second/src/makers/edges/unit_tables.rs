//! Several drives, number 9: Line 75 and 76 of the rules. Records made by hand
//! with every unit up to 255, sectors and marks by the record's own unit, and
//! drives that are taken away, marked or changed between the walk and the steps.

use crate::board::UNITS;
use crate::drive::Drive;
use crate::makers::block::Block;
use crate::makers::edges::fitted::{BENCH, MEMORY};
use crate::makers::edges::last_head::short;
use crate::makers::edges::lists::list_of;
use crate::makers::edges::nines::calls_on_spoiled;
use crate::makers::edges::units::{four_drives, give, shifted, shifted_drives, two_drives, FOUR};
use crate::makers::edges::{image, READ, WRITE};
use crate::makers::script::Script;
use crate::record::Record;
use crate::trial::line::Line;

const OPEN: [bool; UNITS as usize] = [false; UNITS as usize];
/// The field of a record that names its unit.
const UNIT: u64 = 9;
/// Units that are there or not, and others that would be there in two bits or in
/// three.
const TRIED: [u8; 16] = [0, 1, 2, 3, 4, 5, 6, 7, 8, 9, 12, 15, 128, 129, 252, 255];

/// All the cases of this file.
pub fn all(script: &mut Script) {
    rows(script);
    every_unit_by_hand(script);
    no_transfers(script);
    own_ends(script);
    spoiled_after_the_walk(script);
    taken_away(script);
    marked_later(script);
    changed_later(script);
    two_alike(script);
}

/// A read of one sector by hand, at 80H.
fn read_of(unit: u8) -> Record {
    let place = Record { iopb: 0x80, data: 0x400, sector: 2, count: 1, ..Record::default() };
    Record { byte0: READ, unit, ..place }
}

/// Calls on a table of one record, and what it left: its status, and its sector
/// on every unit.
fn calls(script: &mut Script) {
    script.say_all([Line::Commands(1), Line::Steps, Line::Written(0), Line::Pick(1)]);
    script.say_all([Line::LentPick(0), Line::Pick(0)]);
    script.picks(&[0, 0]);
    script.say_all([Line::Written(u64::MAX), Line::Fields(0x80)]);
    script.say_all((0..UNITS).map(|unit| Line::Look { unit, sector: 2 }));
}

/// Line 75, on the ground of Line 64.
fn rows(script: &mut Script) {
    for unit in [0, 1, 2, 4, 255] {
        two_drives(script, [false, true]);
        script.record(0, read_of(unit));
        calls(script);
    }
    two_drives(script, [false, true]);
    script.record(0, Record { byte0: 0, ..read_of(255) });
    calls(script);
}

/// Reads and writes of every unit, without a list and with one, on four drives
/// of which one is absent: that of the unit's two low bits, or the next.
fn every_unit_by_hand(script: &mut Script) {
    let kinds = [(READ, false, 0), (READ, false, 1), (WRITE, false, 1), (WRITE, true, 1)];
    for unit in TRIED {
        for (byte0, listed, absent) in kinds {
            four_drives(script, MEMORY, OPEN);
            script.take_away((u64::from(unit) + absent) % 4);
            let mut record = Record { byte0, ..read_of(unit) };
            if listed {
                record.ranges = 2;
                record.list[..2].copy_from_slice(&list_of(&[(0x600, 300), (0x800, 212)]));
            }
            script.record(0, record);
            calls(script);
        }
    }
}

/// Records that are no transfers, of every unit: never 9, and byte 2 by the unit.
fn no_transfers(script: &mut Script) {
    for unit in TRIED {
        four_drives(script, MEMORY, [false, true, true, false]);
        script.take_away(2);
        let base = read_of(unit);
        let kinds = [(0, 0x00), (7, 0x00), (READ, 0x42), (WRITE, 0x90), (READ, 0x10), (0, 0x14)];
        for (k, (byte0, code)) in kinds.into_iter().enumerate() {
            let iopb = 0x80 + 32 * k as u32;
            script.record(k as u64, Record { iopb, byte0, code, ..base });
        }
        // One that is not in use is not looked at.
        script.record(6, read_of(unit | 0x80));
        script.say_all([Line::Commands(6), Line::Steps, Line::Pick(6), Line::LentPick(3)]);
        script.picks(&[5, 0, 1, 1]);
        script.say(Line::Written(u64::MAX));
        script.say_all((0..6).map(|k| Line::Fields(0x80 + 32 * k)));
    }
}

/// Both sides of the end of each unit's own drive, and its own mark.
fn own_ends(script: &mut Script) {
    for unit in 0..UNITS {
        for (byte0, shift) in [(READ, 0), (WRITE, 0), (READ, 1), (WRITE, 1)] {
            let drive = shifted(unit, shift);
            let end = drive.number_of_sectors() as u32;
            for (sector, count) in [(end - 1, 1), (end, 1), (end - 2, 2), (end - 1, 2)] {
                shifted_drives(script, MEMORY, shift);
                script.record(0, Record { sector, count, byte0, ..read_of(unit as u8) });
                for other in (0..UNITS).filter(|other| *other != unit) {
                    let protected = Drive { protected: true, ..shifted(other, shift) };
                    script.say_all([Line::Unit(other), Line::Drive(protected)]);
                }
                calls(script);
                script.say_all([Line::Unit(unit), Line::Drive(Drive { protected: true, ..drive })]);
                script.say_all([Line::Pick(0), Line::Written(1)]);
            }
        }
    }
}

/// A chain of a read, a write and a No Operation on units 1, 2 and 3.
fn three_units(script: &mut Script) {
    four_drives(script, MEMORY, OPEN);
    script.block(0x00, Block::new(READ).at(0, 0, 1).count(2).data(0x400).unit(1).next(0x20));
    script.block(0x20, Block::new(WRITE).at(1, 0, 2).count(3).data(0x800).unit(2).next(0x40));
    script.block(0x40, Block::new(0).unit(3));
    script.say(Line::Walk(0));
}

/// A walked chain with the unit of one record spoiled, and then put back.
fn spoiled_after_the_walk(script: &mut Script) {
    for place in 0..3 {
        for unit in TRIED {
            three_units(script);
            script.take_away(0);
            script.say(Line::Pick(place));
            script.spoil(place, UNIT, u64::from(unit));
            calls_on_spoiled(script);
            script.spoil(place, UNIT, place + 1);
            script.say(Line::Written(u64::MAX));
            script.say_all([0, 0x20, 0x40].map(Line::Fields));
        }
    }
}

/// Each drive is taken away after the walk, before any step, between two and
/// after the last; then it comes back. Line 76.
fn taken_away(script: &mut Script) {
    for unit in 0..UNITS {
        for before in [0, 1, 2, 5, 6] {
            three_units(script);
            script.say(Line::Written(before));
            script.take_away(unit);
            calls_on_spoiled(script);
            script.say_all([0, 0x20, 0x40].map(Line::Fields));
            script.say_all([Line::There(true), Line::Written(u64::MAX)]);
            script.say_all((0..UNITS).map(|unit| Line::Look { unit, sector: 2 }));
        }
    }
    // A command that failed on a drive that is no longer there.
    for code_of in [Block::new(READ).at(9, 0, 0).count(1), Block::new(READ)] {
        four_drives(script, MEMORY, [true; UNITS as usize]);
        script.block(0, code_of.unit(3));
        script.say(Line::Walk(0));
        script.take_away(3);
        script.say_all([Line::Pick(0), Line::Fields(0)]);
    }
}

/// Each drive gets its mark after the walk: 9 only for the one that is written.
/// Line 76.
fn marked_later(script: &mut Script) {
    for unit in 0..UNITS {
        for before in [0, 3, 6] {
            three_units(script);
            script.say(Line::Written(before));
            let open = FOUR[unit as usize];
            script.say_all([Line::Unit(unit), Line::Drive(Drive { protected: true, ..open })]);
            calls_on_spoiled(script);
            script.say_all([0, 0x20, 0x40].map(Line::Fields));
            script.say_all([Line::Drive(open), Line::Written(u64::MAX)]);
            script.say_all([0, 0x20, 0x40].map(Line::Fields));
        }
    }
    for (write, marked) in [(0, 0), (0, 1), (1, 1), (1, 0)] {
        two_drives(script, [false, false]);
        script.block(0, Block::new(WRITE).count(1).data(0x400).unit(write));
        script.say_all([Line::Walk(0), Line::Unit(marked)]);
        script.say(Line::Drive(Drive { protected: true, ..BENCH }));
        script.say_all([Line::Pick(0), Line::Written(9), Line::Fields(0)]);
    }
}

/// Each drive becomes another with its image after the walk, just large enough
/// for the chain's sectors on it, or one too small.
fn changed_later(script: &mut Script) {
    for (unit, sectors) in [(1, 3), (1, 2), (2, 13), (2, 12), (3, 1), (0, 1)] {
        three_units(script);
        script.say_all([Line::Unit(unit), Line::Drive(short(sectors - 1, 0, 0, 0))]);
        script.say(image(u64::from(sectors)));
        calls_on_spoiled(script);
        give(script, unit, FOUR[unit as usize]);
        script.say(Line::Written(u64::MAX));
    }
}

/// Two records of one unit that is never there, or of two such: 9 all the same,
/// before anyone asks whether they conflict.
fn two_alike(script: &mut Script) {
    for (one, other) in [(9, 9), (9, 8), (4, 4), (4, 0), (0, 4), (2, 2)] {
        two_drives(script, [false, false]);
        script.record(0, Record { byte0: WRITE, ..read_of(one) });
        script.record(1, Record { iopb: 0xA0, data: 0x800, ..read_of(other) });
        script.say_all([Line::Commands(2), Line::Pick(1), Line::Pick(2), Line::LentPick(1)]);
        script.spoil(0, 6, 0x42);
        script.say_all([Line::Pick(1), Line::Pick(0), Line::Written(9)]);
        script.spoil(1, 6, 0x42);
        script.say_all([Line::Pick(1), Line::Pick(0), Line::Written(9)]);
    }
}
