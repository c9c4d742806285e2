//! Several drives, who waits for whom: Line 71 and 72 of the rules, and the same
//! for every two units. Sectors of different units never meet, whatever their
//! numbers; data and status bytes do.

use crate::board::UNITS;
use crate::makers::block::Block;
use crate::makers::edges::lists::list_of;
use crate::makers::edges::units::{four_drives, two_drives};
use crate::makers::edges::{READ, WRITE};
use crate::makers::script::Script;
use crate::trial::line::Line;

const OPEN: [bool; UNITS as usize] = [false; UNITS as usize];

/// All the cases of this file.
pub fn all(script: &mut Script) {
    rows(script);
    every_two_units(script);
    parts_of_transfers(script);
    data_of_two_units(script);
    status_of_another_unit(script);
    three_in_a_row(script);
    lists_of_two_units(script);
}

/// Two commands, chained, and a walk over them.
fn two_commands(script: &mut Script, first: Block, second: Block) {
    script.block(0x00, first.next(0x20));
    script.block(0x20, second);
    script.say(Line::Walk(0));
}

/// The later one first, then the rest; and the sector on every unit.
fn later_first(script: &mut Script, sector: u64) {
    script.say(Line::Pick(1));
    script.picks(&[0, 1, 1]);
    script.say_all([Line::Written(u64::MAX), Line::Fields(0), Line::Fields(0x20)]);
    script.say_all((0..UNITS).map(|unit| Line::Look { unit, sector }));
}

/// Line 71 and 72, with the two units both ways round.
fn rows(script: &mut Script) {
    for (one, other) in [(0, 1), (1, 0)] {
        for (unit, data) in [(other, 0x800), (one, 0x800), (other, 0x400)] {
            two_drives(script, [false, false]);
            let write = Block::new(WRITE).count(1).data(0x400).unit(one);
            let read = Block::new(READ).count(1).data(data).unit(unit);
            two_commands(script, write, read);
            later_first(script, 0);
        }
    }
}

/// The same sector number on every two units, for every two commands.
fn every_two_units(script: &mut Script) {
    for one in 0..UNITS as u8 {
        for other in 0..UNITS as u8 {
            for (first, second) in [(WRITE, READ), (READ, WRITE), (WRITE, WRITE), (READ, READ)] {
                four_drives(script, 0x1000, OPEN);
                let block = Block::new(first).at(0, 0, 2).count(1);
                let second = block.command(second).data(0x800).unit(other);
                two_commands(script, block.data(0x400).unit(one), second);
                later_first(script, 2);
            }
        }
    }
}

/// Transfers of two sectors that share the one's last and the other's first, on
/// one unit and on two.
fn parts_of_transfers(script: &mut Script) {
    for unit in [0, 1, 2, 3] {
        for (first, second) in [(1, 2), (2, 1), (0, 2), (2, 0)] {
            four_drives(script, 0x1000, OPEN);
            let block = Block::new(WRITE).count(2).unit(3);
            let second = block.command(READ).at(0, 0, second).data(0x800).unit(unit);
            two_commands(script, block.at(0, 0, first).data(0x400), second);
            script.picks(&[1, 0, 1]);
            later_first(script, 2);
        }
    }
}

/// Data that meets in one byte, or just does not, of two units with one sector
/// number: they go as written, or either way.
fn data_of_two_units(script: &mut Script) {
    for (first, second) in [(READ, READ), (READ, WRITE), (WRITE, READ), (WRITE, WRITE)] {
        for data in [0x400, 0x5FF, 0x600, 0x201, 0x200] {
            four_drives(script, 0x1000, OPEN);
            let block = Block::new(first).at(0, 0, 1).count(1);
            let second = block.command(second).data(data).unit(1);
            two_commands(script, block.data(0x400).unit(2), second);
            later_first(script, 1);
        }
    }
}

/// Data of one unit over the status bytes of a command of another, by one byte
/// or just not; also where that command's unit is absent.
fn status_of_another_unit(script: &mut Script) {
    for command in [READ, WRITE] {
        for unit in [1, 2, 6] {
            for data in [0x24, 0x23, 0x20] {
                for swapped in [false, true] {
                    four_drives(script, 0x1000, OPEN);
                    script.take_away(2);
                    let moving = Block::new(command).at(0, 0, 1).count(1).data(data).unit(3);
                    let other = Block::new(READ).at(0, 0, 1).count(1).data(0x800).unit(unit);
                    // The one at 20H is first in the chain, or last.
                    script.block(0x20, if swapped { other.next(0x300) } else { other });
                    script.block(0x300, if swapped { moving } else { moving.next(0x20) });
                    script.say(Line::Walk(if swapped { 0x20 } else { 0x300 }));
                    later_first(script, 1);
                }
            }
        }
    }
}

/// A write on unit 0, one on unit 1 and a read of unit 1: the last waits for the
/// second alone.
fn three_in_a_row(script: &mut Script) {
    for first_pick in 0..3 {
        for unit in [0, 1] {
            two_drives(script, [false, false]);
            let block = Block::new(WRITE).at(1, 0, 3).count(1);
            script.block(0x00, block.data(0x400).unit(0).next(0x20));
            script.block(0x20, block.data(0x600).unit(1).next(0x40));
            script.block(0x40, block.command(READ).data(0x800).unit(unit));
            script.say_all([Line::Walk(0), Line::Pick(first_pick)]);
            script.say_all([2, 1, 2, 0, 2].map(Line::Pick));
            script.say_all([0, 1].map(|unit| Line::Look { unit, sector: 19 }));
        }
    }
}

/// Lists on two units, with ranges that meet in the last byte or not at all.
fn lists_of_two_units(script: &mut Script) {
    for address in [0xA00, 0x9FE, 0x800] {
        for unit in [0, 1] {
            two_drives(script, [false, false]);
            script.link_list(0x100, &list_of(&[(0x600, 256), (0x900, 256)]));
            script.link_list(0x180, &list_of(&[(0xC00, 400), (address, 112)]));
            let read = Block::new(READ).at(0, 0, 4).count(1);
            two_commands(script, read.list(0x100, 2).unit(1), read.list(0x180, 2).unit(unit));
            later_first(script, 4);
        }
    }
}
