//! Several drives, sizes and looks: Line 73 and 74 of the rules. Every unit that
//! is there is asked for its size, by every call; nothing that is lent for an
//! absent one is.

use crate::board::{SECTOR_BYTES, UNITS};
use crate::drive::Drive;
use crate::makers::block::Block;
use crate::makers::edges::fitted::{BENCH, MEMORY};
use crate::makers::edges::last_head::short;
use crate::makers::edges::units::{
    four_drives, give, image_of, shifted, shifted_drives, two_drives, FOUR,
};
use crate::makers::edges::{image, memory, READ, WRITE};
use crate::makers::script::Script;
use crate::makers::ALL_32_BITS;
use crate::trial::line::Line;

const OPEN: [bool; UNITS as usize] = [false; UNITS as usize];
/// 32,769 sectors: its image is just over the limit.
const OVER: Drive = short(330, 10, 8, 8);
/// 32,768 sectors: its image is as large as can be.
const LARGEST: Drive = short(255, 7, 15, 15);

/// All the cases of this file.
pub fn all(script: &mut Script) {
    rows(script);
    each_unit_wrong(script);
    at_the_limit(script);
    junk_for_absent_units(script);
    looks(script);
    places(script);
}

/// An image of so many bytes.
fn image_bytes(length: u64) -> Line {
    Line::Image { length, a: 9, b: 1, c: 1 }
}

/// A write and a read on two units, at 0 and 20H.
fn two_commands(script: &mut Script, write: u8, read: u8) {
    let block = Block::new(WRITE).at(0, 0, 3).count(1);
    script.block(0x00, block.data(0x400).unit(write).next(0x20));
    script.block(0x20, block.command(READ).data(0x800).unit(read));
}

/// Every call that tests sizes; one that looks does so at every unit.
fn every_call(script: &mut Script) {
    script.say_all([Line::Walk(0), Line::Pick(1), Line::LentWalk(0), Line::LentPick(0)]);
    script.picks(&[1, 0]);
    script.say(Line::Written(1));
    script.say_all((0..=UNITS).map(|unit| Line::Look { unit, sector: 3 }));
    script.say(Line::Look { unit: 1, sector: ALL_32_BITS });
}

/// Line 73, and the same for unit 0 with unit 1 right.
fn rows(script: &mut Script) {
    for wrong in [1, 0] {
        two_drives(script, [false, false]);
        two_commands(script, 1 - wrong as u8, 1 - wrong as u8);
        every_call(script);
        script.say_all([Line::Unit(wrong), image(33)]);
        every_call(script);
        script.say(Line::There(false));
        every_call(script);
        script.say_all([Line::There(true), image(32), Line::Drive(short(1, 1, 7, 8))]);
        every_call(script);
        script.say(Line::There(false));
        every_call(script);
    }
}

/// Each of four units wrong in turn, in every way, there and absent; the chain is
/// on two of the others.
fn each_unit_wrong(script: &mut Script) {
    for unit in 0..UNITS {
        let drive = FOUR[unit as usize];
        let right = SECTOR_BYTES * drive.number_of_sectors();
        for length in [right - 1, right + 1, right - 512, right + 512, 0] {
            four_drives(script, MEMORY, OPEN);
            two_commands(script, (unit as u8 + 1) % 4, (unit as u8 + 2) % 4);
            script.say_all([Line::Unit(unit), image_bytes(length)]);
            every_call(script);
            script.say(Line::There(false));
            every_call(script);
        }
        // Longer on its last head than on the others, with an image of that size.
        let above = short(0, 1, 1, 3);
        four_drives(script, MEMORY, OPEN);
        two_commands(script, (unit as u8 + 3) % 4, (unit as u8 + 1) % 4);
        give(script, unit, above);
        every_call(script);
        script.say_all([Line::There(false), Line::Place(0)]);
        every_call(script);
        script.say_all([Line::There(true), Line::Drive(drive), image_of(unit, &drive)]);
        every_call(script);
    }
}

/// An image over the limit for each unit, there and absent; and one at the limit,
/// moved and looked at in its last sector.
fn at_the_limit(script: &mut Script) {
    for unit in 0..UNITS {
        two_drives(script, [false, false]);
        two_commands(script, (unit as u8 + 1) % 2, (unit as u8 + 1) % 2);
        give(script, unit, OVER);
        script.say_all([Line::Walk(0), Line::Pick(0), Line::Look { unit, sector: 32_768 }]);
        script.say_all([Line::There(false), Line::Walk(0), Line::Pick(0)]);
        script.say(Line::Look { unit, sector: 32_768 });
    }
    two_drives(script, [false, false]);
    give(script, 2, LARGEST);
    script.block(0, Block::new(WRITE).at(255, 7, 15).count(1).data(0x400).unit(2));
    script.say_all([Line::Walk(0), Line::Pick(0)]);
    script.say_all([32_767, 32_768].map(|sector| Line::Look { unit: 2, sector }));
    script.say_all([memory(65_537), Line::Walk(0), Line::Look { unit: 2, sector: 0 }]);
    script.say_all([memory(65_536), Line::Walk(0), Line::Pick(0)]);
}

/// What is lent for absent units: images of any length, maxima of any size, the
/// last head's above the others', marks set. The units that are there work.
fn junk_for_absent_units(script: &mut Script) {
    let largest = short(65_535, 255, 255, 255);
    let junk = [
        (0, largest),
        (1, short(1, 1, 7, 7)),
        (511, short(0, 0, 0, 255)),
        (513, short(0, 0, 0, 0)),
        (33 * 512, short(1, 1, 7, 8)),
        (32 * 512, short(1, 1, 7, 7)),
        (16_778_240, short(65_535, 255, 0, 255)),
    ];
    for way in 0..1 << UNITS {
        four_drives(script, MEMORY, OPEN);
        for unit in (0..UNITS).filter(|unit| way >> unit & 1 == 0) {
            // The longest one in two cases only, since it is slow.
            let kinds = if way == 6 || way == 11 { 7 } else { 6 };
            let (length, drive) = junk[((way + 2 * unit) % kinds) as usize];
            let drive = Drive { protected: unit % 2 == 0, ..drive };
            script.say_all([Line::Unit(unit), Line::Drive(drive)]);
            script.say_all([image_bytes(length), Line::There(false)]);
        }
        for unit in 0..8 {
            let command = if unit % 2 == 0 { WRITE } else { READ };
            let block = Block::new(command).at(0, 0, 1).count(1).data(0x400 + 0x80 * unit);
            let block = if unit < 7 { block.next(32 * (unit + 1)) } else { block };
            script.block(32 * unit, block.unit(unit as u8));
        }
        script.say_all([Line::Walk(0), Line::Steps, Line::Pick(3), Line::LentPick(2)]);
        script.picks(&[1, 0, 7]);
        script.say(Line::Written(u64::MAX));
        script.say_all((0..8).map(|unit| Line::Fields(32 * unit)));
        script.say_all((0..=UNITS).map(|unit| Line::Look { unit, sector: 1 }));
    }
}

/// Line 74 on every unit, its first and its last sector and past it; units that
/// are never there; and every unit absent in turn.
fn looks(script: &mut Script) {
    let units = [0, 1, 2, 3, 4, 5, 6, 7, 8, 9, 10, 11, 12, 127, 128, 252, 253, 254, 255];
    for absent in 0..=UNITS {
        let shift = absent % 2;
        shifted_drives(script, 64, shift);
        if absent < UNITS {
            script.take_away(absent);
        }
        for unit in units {
            let sectors = shifted(unit, shift).number_of_sectors();
            for sector in [0, sectors - 1, sectors, 31, 32, 1 << 23, ALL_32_BITS] {
                script.say(Line::Look { unit, sector });
            }
        }
    }
    // Line 74 as it stands: 1 comes before 11, and 11 before 10.
    two_drives(script, [false, true]);
    let asked = [(1, 31), (1, 32), (2, 32), (2, 0), (3, 31), (4, 0), (5, 32), (255, 0)];
    script.say_all(asked.map(|(unit, sector)| Line::Look { unit, sector }));
    script.say_all([Line::Unit(1), image(33)]);
    script.say_all(asked.map(|(unit, sector)| Line::Look { unit, sector }));
    script.say_all([Line::There(false), memory(65_537)]);
    script.say_all(asked.map(|(unit, sector)| Line::Look { unit, sector }));
}

/// A place asks the chosen unit's drive, there or not, whatever the images are.
fn places(script: &mut Script) {
    four_drives(script, 64, OPEN);
    for unit in 0..UNITS {
        let sectors = FOUR[unit as usize].number_of_sectors();
        for there in [true, false] {
            script.say_all([Line::Unit(unit), Line::There(there)]);
            script.say_all([0, 5, sectors - 1, sectors].map(Line::Place));
        }
        script.say_all([Line::Drive(short(0, 0, 1, 2)), Line::Place(0)]);
        script.say_all([Line::Drive(BENCH), Line::Place(31), Line::Place(32)]);
    }
}
