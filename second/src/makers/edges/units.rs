//! Several drives, row by row: Line 64 to 70 of the rules, and the same for all
//! sixteen ways of drives being there. The status at the end of each command
//! shows its code, whose protect mark was asked and how much would have fitted.

use crate::board::{SECTOR_BYTES, UNITS};
use crate::drive::Drive;
use crate::makers::block::Block;
use crate::makers::edges::fitted::{each_alone, from_end, BENCH, MEMORY};
use crate::makers::edges::last_head::short;
use crate::makers::edges::lists::list_of;
use crate::makers::edges::{memory, READ, WRITE};
use crate::makers::script::Script;
use crate::trial::line::Line;

/// Four drives of 32, 4, 24 and 30 sectors, no two of one shape.
pub const FOUR: [Drive; UNITS as usize] =
    [short(1, 1, 7, 7), short(0, 0, 3, 3), short(2, 1, 4, 2), short(4, 0, 9, 5)];

/// All the cases of this file.
pub fn all(script: &mut Script) {
    rows(script);
    every_way(script);
    own_maximum(script);
    own_ends(script);
    numbers_on_absent_units(script);
    bits_over_the_unit(script);
    after_the_walk(script);
    by_a_list(script);
}

/// An image for a unit's drive. No two sectors of the four units are alike, so
/// that a wrong unit shows.
pub fn image_of(unit: u64, drive: &Drive) -> Line {
    let length = SECTOR_BYTES * drive.number_of_sectors();
    Line::Image { length, a: 64 * unit as u8 + 5, b: 3, c: 1 }
}

/// Makes a unit there, with this drive and its own image.
pub fn give(script: &mut Script, unit: u64, drive: Drive) {
    script.give(unit, drive, image_of(unit, &drive));
}

/// The ground of Line 64: two drives like the bench's, with these marks, and no
/// other.
pub fn two_drives(script: &mut Script, marks: [bool; 2]) {
    script.case();
    script.say(memory(MEMORY));
    for (unit, protected) in marks.into_iter().enumerate() {
        give(script, unit as u64, Drive { protected, ..BENCH });
    }
    script.say(Line::Unit(0));
}

/// Four drives of different sizes, all there, with these marks.
pub fn four_drives(script: &mut Script, memory_bytes: u64, marks: [bool; UNITS as usize]) {
    script.case();
    script.say(memory(memory_bytes));
    for (unit, protected) in marks.into_iter().enumerate() {
        give(script, unit as u64, Drive { protected, ..FOUR[unit] });
    }
    script.say(Line::Unit(0));
}

/// The same four drives, open, each on the unit so many before its own: with a
/// shift of 1 unit 0 has the smallest.
pub fn shifted_drives(script: &mut Script, memory_bytes: u64, shift: u64) {
    four_drives(script, memory_bytes, [false; UNITS as usize]);
    for unit in (0..UNITS).filter(|_| shift != 0) {
        give(script, unit, shifted(unit, shift));
    }
}

/// The drive of a unit after such a shift.
pub fn shifted(unit: u64, shift: u64) -> Drive {
    FOUR[((unit + shift) % UNITS) as usize]
}

/// One command for each of the units 0 to 7.
fn of_every_unit(block: Block) -> Vec<Block> {
    (0..8).map(|unit| block.unit(unit)).collect()
}

/// Line 64 to 68, for every unit, and the other way round: unit 0 protected.
fn rows(script: &mut Script) {
    let read = Block::new(READ).count(1).data(0x400);
    for marks in [[false, true], [true, false]] {
        for block in [
            read,
            read.command(WRITE),
            read.command(0),
            read.command(5),
            read.count(0),
            read.command(WRITE).count(0),
            read.subfunction(1),
            read.command(0).sgm(),
            read.next(0x21),
            // past the end of the drive, of memory, and of both
            read.at(1, 1, 7).count(2),
            read.data(0xE01),
            read.at(1, 1, 7).count(2).data(0xE00).command(WRITE),
        ] {
            two_drives(script, marks);
            each_alone(script, &of_every_unit(block));
        }
    }
}

/// Every way of drives being there, the marks on the odd units and then on the
/// even ones: a read, a write, a No Operation and command 5 of every unit.
fn every_way(script: &mut Script) {
    for way in 0..1 << UNITS {
        for marked in [0, 1] {
            four_drives(script, MEMORY, [0, 1, 2, 3].map(|unit| unit % 2 == marked));
            for unit in (0..UNITS).filter(|unit| way >> unit & 1 == 0) {
                script.take_away(unit);
            }
            for command in [READ, WRITE, 0, 5] {
                let block = Block::new(command).at(0, 0, 1).count(1).data(0x400);
                each_alone(script, &of_every_unit(block));
            }
        }
    }
}

/// Line 69: unit 1 with fewer sectors than unit 0, and the other way round.
fn own_maximum(script: &mut Script) {
    let small = FOUR[1];
    let read = Block::new(READ).count(1).data(0x400);
    for (smaller, larger) in [(1, 0), (0, 1), (2, 3)] {
        two_drives(script, [false, false]);
        give(script, larger, BENCH);
        give(script, smaller, small);
        let blocks = [smaller, larger]
            .map(|unit| [3, 4, 7, 8].map(|sector| read.unit(unit as u8).at(0, 0, sector)));
        each_alone(script, &blocks.concat());
    }
}

/// Both sides of every maximum and of the end of each unit's own drive, as reads
/// and as writes, and how much would have fitted there.
fn own_ends(script: &mut Script) {
    for unit in 0..UNITS {
        for (command, shift) in [(READ, 0), (WRITE, 0), (READ, 1), (WRITE, 1)] {
            shifted_drives(script, MEMORY, shift);
            let blocks: Vec<Block> = around(&shifted(unit, shift))
                .into_iter()
                .map(|block| block.unit(unit as u8).command(command))
                .collect();
            each_alone(script, &blocks);
        }
    }
}

/// The number of the first sector in the records of absent units: it goes by no
/// lent drive, and not by unit 0's.
fn numbers_on_absent_units(script: &mut Script) {
    for command in [READ, WRITE, 0, 5] {
        for (cylinder, head, sector) in [(1, 1, 2), (2, 0, 1), (0, 3, 0), (65_535, 255, 255)] {
            four_drives(script, MEMORY, [true; UNITS as usize]);
            for unit in 1..UNITS {
                script.take_away(unit);
            }
            let block = Block::new(command).at(cylinder, head, sector).count(1).data(0x400);
            each_alone(script, &of_every_unit(block));
        }
    }
}

/// Commands at and past every edge of a drive.
fn around(drive: &Drive) -> Vec<Block> {
    let read = Block::new(READ).count(1).data(0x400);
    let (cylinder, head) = (u64::from(drive.max_cylinder), u64::from(drive.max_head));
    let last = drive.max_sector_of(head);
    let mut blocks = vec![
        read.at(cylinder, head, last),
        read.at(cylinder + 1, 0, 0),
        read.at(0, head + 1, 0),
        read.at(0, head, last + 1),
        read.at(0, 0, drive.max_sector_of(0)),
        read.at(0, 0, drive.max_sector_of(0) + 1),
    ];
    for (sectors, count) in [(1, 2), (2, 2), (3, 4), (4, 9), (4, 65_535)] {
        blocks.push(from_end(drive, sectors, count));
    }
    blocks
}

/// Line 70: the bits over the unit, one by one and all.
fn bits_over_the_unit(script: &mut Script) {
    for command in [READ, WRITE, 0] {
        two_drives(script, [false, true]);
        let block = Block::new(command).count(1).data(0x400);
        for high in [0x00, 0x08, 0x10, 0x20, 0x40, 0x80, 0xF8] {
            let blocks: Vec<Block> = (0..8).map(|unit| block.byte(5, high | unit)).collect();
            each_alone(script, &blocks);
        }
    }
}

/// Byte 5 becomes another unit after the walk: it has no say any more, neither
/// in the sector that moves nor in byte 2.
fn after_the_walk(script: &mut Script) {
    for command in [READ, WRITE, 0, 5] {
        for (own, other) in [(0, 1), (1, 0), (1, 2), (2, 1), (0, 7), (3, 0), (7, 1)] {
            four_drives(script, MEMORY, [false, true, false, true]);
            script.take_away(2);
            let block = Block::new(command).at(0, 0, 2).count(1).data(0x400).unit(own);
            script.block(0, block);
            script.say(Line::Walk(0));
            script.put(5, &[other]);
            script.say_all([Line::Pick(0), Line::Fields(0)]);
            script.say_all((0..UNITS).map(|unit| Line::Look { unit, sector: 2 }));
        }
    }
}

/// Reads and writes of two sectors by a list of three ranges, on each unit.
fn by_a_list(script: &mut Script) {
    let ranges = list_of(&[(0x600, 300), (0xA00, 500), (0x800, 224)]);
    for command in [READ, WRITE] {
        four_drives(script, MEMORY, [false; UNITS as usize]);
        script.link_list(0x400, &ranges);
        for unit in 0..6 {
            let block = Block::new(command).at(0, 0, 1).count(2).list(0x400, 3).unit(unit);
            each_alone(script, &[block]);
            script.say_all((0..UNITS).map(|unit| Line::Look { unit, sector: 2 }));
        }
    }
}
