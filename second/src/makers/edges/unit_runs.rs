//! Several drives, whole chains: sectors of the same numbers written, read back
//! and copied on four units, by picks in many orders and as written; and refused
//! calls between, which change no image.

use crate::board::UNITS;
use crate::iopb::IOPB_BYTES;
use crate::makers::block::Block;
use crate::makers::edges::units::{four_drives, image_of, FOUR};
use crate::makers::edges::{READ, WRITE};
use crate::makers::script::Script;
use crate::trial::line::Line;

const OPEN: [bool; UNITS as usize] = [false; UNITS as usize];
/// Memory for 32 IOPBs and the data of all of them.
const MEMORY: u64 = 0x4000;
/// Where the data of the first command is; the others follow, 512 bytes apart.
const DATA: u64 = 0x400;

/// All the cases of this file.
pub fn all(script: &mut Script) {
    a_step_on_each(script);
    written_and_read_back(script);
    every_order(script);
    copied_from_unit_to_unit(script);
    thirty_two(script);
    data_over_a_later_iopb(script);
    refused_between(script);
    one_unit_alone(script);
}

/// Puts these commands in a chain from 0 on, 32 bytes apart, and walks it.
fn chain(script: &mut Script, blocks: &[Block]) {
    for (k, block) in blocks.iter().enumerate() {
        let (at, last) = (32 * k as u64, k + 1 == blocks.len());
        script.block(at, if last { *block } else { block.next(at + 32) });
    }
    script.say(Line::Walk(0));
}

/// One sector of each unit.
fn look_at_all(script: &mut Script, sectors: &[u64]) {
    for sector in sectors {
        script.say_all((0..UNITS).map(|unit| Line::Look { unit, sector: *sector }));
    }
}

/// A transfer of sector 2 of a unit, its data at one of the places.
fn at_place(command: u8, unit: u64, place: u64) -> Block {
    let block = Block::new(command).at(0, 0, 2).count(1);
    block.data(DATA + 512 * place).unit(unit as u8)
}

/// One read and one write on each unit, each by a pick of its own.
fn a_step_on_each(script: &mut Script) {
    for unit in 0..UNITS {
        for command in [READ, WRITE] {
            four_drives(script, MEMORY, OPEN);
            chain(script, &[at_place(command, unit, unit)]);
            script.say_all([Line::Pick(0), Line::Fields(0)]);
            look_at_all(script, &[1, 2, 3]);
        }
    }
}

/// Sector 2 is written on each unit with bytes of its own, and read back on each
/// after all the others were written.
fn back_and_forth() -> Vec<Block> {
    let writes = (0..UNITS).map(|unit| at_place(WRITE, unit, unit));
    let reads = (0..UNITS).map(|unit| at_place(READ, unit, UNITS + unit));
    writes.chain(reads).collect()
}

fn written_and_read_back(script: &mut Script) {
    let lists: [&[u8]; 6] = [
        // As written; the units from the last to the first; each written and read.
        &[0, 1, 2, 3, 4, 5, 6, 7],
        &[3, 2, 1, 0, 7, 6, 5, 4],
        &[0, 4, 1, 5, 2, 6, 3, 7],
        // Reads that wait for their own unit, and go once it is written.
        &[4, 5, 6, 7, 3, 4, 5, 6, 7, 2, 6, 1, 5, 0, 4],
        &[7, 3, 7, 6, 2, 6, 4, 0, 5, 4, 1, 5],
        &[],
    ];
    for list in lists {
        four_drives(script, MEMORY, OPEN);
        chain(script, &back_and_forth());
        script.picks(list);
        look_at_all(script, &[2]);
        script.say_all([Line::Written(u64::MAX), Line::Steps]);
        script.say_all((0..8).map(|k| Line::Fields(32 * k)));
        look_at_all(script, &[1, 2, 3]);
    }
}

/// Four writes and four reads, of a unit each, in every order of the units.
fn every_order(script: &mut Script) {
    for order in orders() {
        four_drives(script, MEMORY, OPEN);
        chain(script, &back_and_forth());
        script.say_all(order.iter().map(|unit| Line::Pick(*unit)));
        script.say_all(order.iter().rev().map(|unit| Line::LentPick(UNITS + unit)));
        script.say(Line::Written(1));
    }
}

/// The 24 orders of four units.
fn orders() -> Vec<[u64; 4]> {
    let mut orders = Vec::new();
    for code in 0..256_u64 {
        let order = [code >> 6 & 3, code >> 4 & 3, code >> 2 & 3, code & 3];
        if (0..UNITS).all(|unit| order.contains(&unit)) {
            orders.push(order);
        }
    }
    orders
}

/// A sector goes from unit to unit: read of one, written on the next, and so on
/// round to the first. Only the data keeps them in order.
fn copied_from_unit_to_unit(script: &mut Script) {
    let mut blocks = Vec::new();
    for unit in 0..UNITS {
        blocks.push(at_place(READ, unit, unit));
        blocks.push(at_place(WRITE, (unit + 1) % UNITS, unit));
    }
    for list in [vec![], vec![7, 6, 5, 4, 3, 2, 1, 0], vec![0, 2, 4, 6, 7, 5, 3, 1]] {
        four_drives(script, MEMORY, OPEN);
        chain(script, &blocks);
        for _ in 0..2 {
            script.picks(&list);
        }
        script.say(Line::Written(u64::MAX));
        look_at_all(script, &[2]);
    }
}

/// A chain of 32 commands over units 0 to 7, some failing, with the marks on two
/// units; by picks from the last to the first, from both ends, and as written.
fn thirty_two(script: &mut Script) {
    let blocks: Vec<Block> = (0..32)
        .map(|k| {
            let command = [WRITE, READ, READ, WRITE, 0, WRITE, READ, 5][(k / 4 % 8) as usize];
            let unit = if k % 8 == 7 { 4 + k / 8 } else { k % 4 };
            at_place(command, unit, k % 12).at(0, 0, k / 8)
        })
        .collect();
    let back: Vec<u8> = (0..32).rev().collect();
    let ends: Vec<u8> = (0..16).flat_map(|k| [31 - k, k]).collect();
    for list in [Vec::new(), [back.clone(), back].concat(), [ends.clone(), ends].concat()] {
        four_drives(script, MEMORY, [false, false, true, false]);
        chain(script, &blocks);
        script.say_all([Line::Steps, Line::Picks(list)]);
        script.say_all([Line::Written(5), Line::Written(u64::MAX)]);
        look_at_all(script, &[0, 1, 2, 3]);
        script.say_all([4, 7, 15, 23, 28, 31].map(|k| Line::Fields(32 * k)));
    }
}

/// A read on one unit lays another command's IOPB over a later one, with another
/// unit in it: the later one stays what the walk found.
fn data_over_a_later_iopb(script: &mut Script) {
    for own in [0, 1, 2, 7] {
        four_drives(script, MEMORY, [false, true, false, true]);
        script.take_away(2);
        let later = Block::new(READ).at(0, 0, 3).count(1).data(DATA).unit(own);
        let other = later.unit(3 - own % 4).at(1, 0, 0).data(DATA + 512);
        script.say_all([Line::Unit(0)]);
        script.say(Line::Disk { offset: 2 * 512, bytes: other.bytes.to_vec() });
        // The data begins with the later IOPB's first byte.
        script.block(0x200, Block::new(READ).at(0, 0, 2).count(1).data(0x100).next(0x100));
        script.block(0x100, later);
        script.say_all([Line::Walk(0x200), Line::Pick(1), Line::Pick(0), Line::Fields(0x100)]);
        script.say_all([Line::Pick(1), Line::Fields(0x100)]);
    }
}

/// Refused calls of every kind between the steps: no image changes.
fn refused_between(script: &mut Script) {
    for unit in 0..UNITS {
        four_drives(script, MEMORY, OPEN);
        chain(script, &back_and_forth());
        script.picks(&[1, 2]);
        // 1 by one unit, then 9 by it, then 8, 7 and 6.
        script.say_all([Line::Unit(unit), Line::Drive(FOUR[(unit as usize + 1) % 4])]);
        script.say_all([Line::Pick(0), Line::Written(9), Line::Walk(0), Line::LentWalk(0)]);
        script.say_all([Line::Drive(FOUR[unit as usize]), Line::There(false)]);
        script.say_all([Line::Pick(0), Line::LentPick(3), Line::Written(9)]);
        script.picks(&[0, 3]);
        script.say_all([Line::There(true), Line::Pick(8), Line::Pick(1), Line::Pick(4)]);
        script.say_all([Line::Walk(1), Line::LentWalk(MEMORY - IOPB_BYTES + 2)]);
        chain(script, &back_and_forth());
        script.say(Line::Written(u64::MAX));
        look_at_all(script, &[2]);
    }
}

/// Each unit there alone, with the other drives taken away: the chain over four
/// units does its part.
fn one_unit_alone(script: &mut Script) {
    for alone in 0..UNITS {
        four_drives(script, MEMORY, [true; UNITS as usize]);
        for unit in 0..UNITS {
            script.say(Line::Unit(unit));
            script.say_all([Line::Drive(FOUR[unit as usize]), Line::There(unit == alone)]);
        }
        chain(script, &back_and_forth());
        script.picks(&[7, 6, 5, 4, 3, 2, 1, 0]);
        script.say(Line::Written(u64::MAX));
        script.say_all((0..8).map(|k| Line::Fields(32 * k)));
        look_at_all(script, &[2]);
        // The others come back as they were lent.
        for unit in 0..UNITS {
            script.say_all([Line::Unit(unit), Line::There(true)]);
        }
        look_at_all(script, &[2, 3]);
        script.say(image_of(3, &FOUR[3]));
        script.say_all([Line::Walk(0), Line::Written(u64::MAX)]);
    }
}
