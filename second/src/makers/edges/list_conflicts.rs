//! Conflicts of commands with link lists: by one range alone, by none though
//! the lists lie among each other, by status bytes, and never by the list.

use crate::makers::block::Block;
use crate::makers::edges::lists::{list_case, list_of};
use crate::makers::edges::{READ, WRITE};
use crate::makers::script::Script;
use crate::range::Range;
use crate::trial::line::Line;

/// The first command's list, and where it is.
const FIRST: [(u32, u32); 3] = [(0x600, 101), (0xA00, 300), (0x802, 111)];
const FIRST_LIST: u64 = 0x400;
const SECOND_LIST: u64 = 0x480;

/// All the cases of this file.
pub fn all(script: &mut Script) {
    by_one_range(script);
    among_each_other(script);
    by_status(script);
    by_the_list(script);
    failed(script);
}

/// A transfer of one sector with this list, which is put at this address.
fn laid(script: &mut Script, command: u8, sector: u64, at: u64, list: &[Range]) -> Block {
    script.link_list(at, list);
    Block::new(command).at(0, sector / 8, sector % 8).count(1).list(at, list.len() as u64)
}

/// Links two commands at 0 and 20H, picks the later first, then both.
fn later_first(script: &mut Script, first: Block, second: Block) {
    script.block(0, first.next(0x20));
    script.block(0x20, second);
    script.say_all([Line::Walk(0), Line::Pick(1), Line::Pick(0), Line::Pick(1)]);
    script.say_all([Line::Written(9), Line::Fields(0), Line::Fields(0x20)]);
    script.say_all([3, 9].map(Line::look_0));
}

/// Two commands with lists on sectors that are not in each other's way.
fn pair(script: &mut Script, commands: (u8, u8), first: &[Range], second: &[Range]) {
    list_case(script);
    let one = laid(script, commands.0, 3, FIRST_LIST, first);
    let other = laid(script, commands.1, 9, SECOND_LIST, second);
    later_first(script, one, other);
}

/// The second command beside each range of the first, and meeting that range in
/// one byte; each range alone is enough. Its own such range is its last.
fn by_one_range(script: &mut Script) {
    let first = list_of(&FIRST);
    for (address, length) in [
        // Before, at and after the three ranges of the first.
        (0x5F0, 16),
        (0x5F0, 17),
        (0x664, 10),
        (0x666, 10),
        (0x7F0, 18),
        (0x7F0, 19),
        (0x870, 10),
        (0x872, 10),
        (0x9F0, 16),
        (0x9F0, 17),
        (0xB2A, 10),
        (0xB2C, 10),
    ] {
        let second = list_of(&[(0xC00, 200), (0xD00, 312 - length), (address, length)]);
        for commands in [(READ, READ), (READ, WRITE), (WRITE, READ), (WRITE, WRITE)] {
            pair(script, commands, &first, &second);
        }
    }
    // The other way: a command without a list against the ranges of a list.
    for data in [0x600, 0x666, 0x602, 0x872, 0x800, 0x870, 0xB2C, 0xB2A, 0xC00] {
        list_case(script);
        let plain = Block::new(READ).at(1, 0, 0).count(1).data(data);
        let other = laid(script, WRITE, 9, SECOND_LIST, &first);
        later_first(script, plain, other);
    }
}

/// Lists whose ranges lie among each other without a byte in common, so that
/// their hulls meet; and ranges of length 0 inside the other's data.
fn among_each_other(script: &mut Script) {
    let evens = list_of(&[(0x600, 200), (0x800, 200), (0xA00, 112)]);
    let odds = list_of(&[(0x700, 200), (0x900, 200), (0xB00, 112)]);
    let touching = list_of(&[(0x6C8, 312), (0x8C8, 200)]);
    let inside = list_of(&[(0x6C8, 312), (0x8C8, 312), (0xA70, 400)]);
    let zeros = list_of(&[(0x600, 0), (0x640, 0), (0xC00, 512), (0xA00, 0)]);
    let last_zero = list_of(&[(0xC00, 512), (0x802, 0)]);
    let near_zeros = list_of(&[(0x600, 0), (0xA6E, 512)]);
    for (one, other) in [
        (&evens, &odds),
        (&odds, &evens),
        (&evens, &touching),
        (&inside, &evens),
        (&evens, &zeros),
        (&zeros, &evens),
        (&last_zero, &evens),
        (&evens, &near_zeros),
        (&zeros, &zeros),
    ] {
        for commands in [(READ, READ), (READ, WRITE), (WRITE, READ)] {
            pair(script, commands, one, other);
        }
    }
}

/// A range beside the status bytes of the other command, and over one of them;
/// the first command's at 0, then the later one's.
fn by_status(script: &mut Script) {
    for (address, length) in
        [(0x00, 1), (0x02, 2), (0x04, 8), (0x02, 0), (0x1E, 2), (0x1E, 3), (0x22, 1), (0x24, 6)]
    {
        for command in [READ, WRITE] {
            let list = list_of(&[(0x600, 300), (address, length), (0xA00, 212 - length)]);
            list_case(script);
            let second = laid(script, command, 9, SECOND_LIST, &list);
            later_first(script, Block::new(0), second);
            list_case(script);
            let first = laid(script, command, 9, FIRST_LIST, &list);
            later_first(script, first, Block::new(9));
        }
    }
}

/// One command's data over the other's list: none of them waits.
fn by_the_list(script: &mut Script) {
    let apart = list_of(&[(0xA00, 300), (0xC00, 212)]);
    for command in [READ, WRITE] {
        let over = list_of(&[(0x600, 412), (SECOND_LIST as u32, 100)]);
        pair(script, (READ, command), &over, &apart);
        let over = list_of(&[(0x600, 412), (FIRST_LIST as u32, 100)]);
        pair(script, (command, READ), &apart, &over);
    }
    // Both by one and the same list; then sectors alone are in the way.
    for (one, other, sector) in [(READ, READ, 9), (WRITE, WRITE, 9), (WRITE, WRITE, 3)] {
        list_case(script);
        let first = laid(script, one, 3, FIRST_LIST, &apart);
        let second = laid(script, other, sector, FIRST_LIST, &apart);
        later_first(script, first, second);
    }
}

/// Commands whose lists are wrong write their status and no more, wherever the
/// ranges lie that the walk has kept.
fn failed(script: &mut Script) {
    let right = list_of(&[(0x600, 300), (0x800, 212)]);
    for wrong in [
        list_of(&[(0x600, 300), (0x800, 211)]),
        list_of(&[(0x600, 300), (0x801, 212)]),
        list_of(&[(0x600, 300), (0xF2E, 212)]),
        list_of(&[(0x20, 4), (0x800, 507)]),
    ] {
        pair(script, (READ, READ), &wrong, &right);
        pair(script, (READ, READ), &right, &wrong);
    }
}
