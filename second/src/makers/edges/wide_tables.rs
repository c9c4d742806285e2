//! Tables made by hand at the edges of 16 and of 32 bits: sums of a record that
//! would be right once they are cut off give 9, beside those that are right.

use crate::makers::edges::{image, memory, READ, WRITE};
use crate::makers::script::Script;
use crate::makers::ALL_32_BITS;
use crate::record::Record;
use crate::trial::line::Line;

/// The sectors of the drive in these cases, on its one track.
const SECTORS: u64 = 256;

/// All the cases of this file.
pub fn all(script: &mut Script) {
    sectors(script);
    sectors_with_a_bit_more(script);
    data(script);
    iopbs(script);
    steps_taken(script);
    sum_of_steps(script);
}

/// The largest memory and a drive of one track.
fn ground(script: &mut Script) {
    script.case();
    script.drive(0, 0, 255, false);
    script.say_all([memory(65_536), image(SECTORS)]);
}

/// A record of one sector that is right.
fn right(command: u8) -> Record {
    Record { iopb: 0x40, data: 0x400, sector: 9, count: 1, byte0: command, ..Record::default() }
}

/// Calls on a table of one record, each after the other.
fn calls(script: &mut Script) {
    script.say_all([Line::Commands(1), Line::Steps, Line::Pick(1), Line::Pick(0)]);
    script.picks(&[]);
    script.say_all([Line::LentPick(0), Line::Written(0)]);
    script.picks(&[0, 1]);
    script.say_all([Line::Written(u64::MAX), Line::Fields(0x40), Line::look_0(9)]);
}

/// A table of one record, in a case of its own.
fn one(script: &mut Script, record: Record) {
    ground(script);
    script.record(0, record);
    calls(script);
}

/// First sector + count at the end of the drive, and about 2 to the 16 and to
/// the 32, where 0 or a number of the drive would be left.
fn sectors(script: &mut Script) {
    for (sector, count) in [
        (255, 1),
        (256, 1),
        (156, 100),
        (157, 100),
        (65_535, 1),
        (65_436, 100),
        (65_535, 100),
        (65_536, 1),
        (65_692, 100),
        (65_693, 100),
        (0x7FFF_FFFF, 1),
        (0x8000_0000, 1),
        (0xFFFF_0000, 1),
        (0xFFFF_FFFE, 1),
        (0xFFFF_FFFF, 1),
        (0xFFFF_FFFF, 2),
        (0xFFFF_FF9B, 100),
        (0xFFFF_FF9C, 100),
        (0xFFFF_FFFF, 100),
    ] {
        for command in [READ, WRITE] {
            one(script, Record { sector, count, ..right(command) });
        }
    }
}

/// A sector of the drive with one bit more, each a table of its own in one case.
/// From 2 to the 23 on it would be a bit of the offset in the image.
fn sectors_with_a_bit_more(script: &mut Script) {
    ground(script);
    script.record(0, right(READ));
    script.say_all([Line::Commands(1), Line::Written(0)]);
    for bit in 8..32 {
        script.spoil(0, 2, 9 + (1 << bit));
        script.say_all([Line::Pick(0), Line::Written(1)]);
    }
    script.spoil(0, 2, 9);
    script.say(Line::Written(u64::MAX));
}

/// Data that ends at 65,536 and past it, where 128 sectors are no byte in 16
/// bits; and data whose end is 0 or little more in 32 bits.
fn data(script: &mut Script) {
    for (data, count) in [
        (0, 128),
        (1, 128),
        (512, 127),
        (513, 127),
        (512, 128),
        (65_535, 128),
        (65_536, 128),
        (0, 129),
        (65_024, 129),
        (65_025, 129),
        (0, 256),
        (65_536, 256),
        (65_024, 1),
        (65_025, 1),
        (65_536, 1),
        (0x1_0400, 1),
        (0x8000_0400, 1),
        (0xFFFF_FDFF, 1),
        (0xFFFF_FE00, 1),
        (0xFFFF_FE01, 1),
        (0xFFFF_FFFF, 1),
        (0xFFFF_0000, 128),
        (0xFFFF_0000, 129),
        (0xFFFF_FFFF, 256),
    ] {
        let sector = 0;
        for command in [READ, WRITE] {
            one(script, Record { data, count, sector, ..right(command) });
        }
    }
}

/// The IOPB's thirty bytes at the end of the largest memory, past it, and where
/// their end would be 0 or more in 16 or in 32 bits.
fn iopbs(script: &mut Script) {
    for iopb in [65_506, 65_507, 65_535, 65_536, 0x1_0040, 0xFFFF_FFE2, 0xFFFF_FFE1, 0xFFFF_FFFF] {
        for byte0 in [0, READ] {
            one(script, Record { iopb, ..right(byte0) });
        }
    }
}

/// Steps taken that would be fewer in 16 bits.
fn steps_taken(script: &mut Script) {
    for taken in [0, 1, 2, 3, 65_536, 65_537, 65_538, 0x8000_0001, 0xFFFF_FFFF] {
        one(script, Record { taken, count: 2, ..right(READ) });
        one(script, Record { taken, ..right(0) });
    }
}

/// The most steps that a table can have, 32 x 65,535, and no call takes one:
/// the sectors are outside the drive.
fn sum_of_steps(script: &mut Script) {
    ground(script);
    for place in 0..32 {
        let command = if place % 2 == 0 { READ } else { WRITE };
        script.record(place, Record { count: 65_535, ..right(command) });
        script.say_all([Line::Commands(place + 1), Line::Steps]);
    }
    script.say_all([33, ALL_32_BITS].map(Line::Commands));
    script.say_all([Line::Steps, Line::Commands(32), Line::Written(ALL_32_BITS)]);
}
