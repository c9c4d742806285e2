//! The codes of commands with SGM set: how many elements there are, where the
//! list ends, what its lengths add up to, where its ranges lie.

use crate::makers::block::Block;
use crate::makers::edges::lists::{
    both_ways, case_with_memory, evenly, large_case, list_case, list_of, listed, off_by_lost_bits,
    one_way, walk_and_show, LIST, MEMORY,
};
use crate::makers::edges::{READ, WRITE};
use crate::makers::script::Script;
use crate::makers::ALL_32_BITS;
use crate::range::Range;
use crate::trial::line::Line;

/// All the cases of this file.
pub fn all(script: &mut Script) {
    elements(script);
    list_ends(script);
    lengths(script);
    long_lengths(script);
    odd_addresses(script);
    range_ends(script);
    codes_before(script);
    order(script);
}

/// Every kind of byte 6 over lists that are right for 32, 31, 1 and 2 elements
/// only: what follows would spoil the sum.
fn elements(script: &mut Script) {
    let sixteens = evenly(32, 0x600, 34, 16);
    let mut for_31 = sixteens.clone();
    for_31[30].length = 32;
    let mut for_1 = sixteens.clone();
    for_1[0] = Range { address: 0xC00, length: 512 };
    let mut for_2 = sixteens.clone();
    for_2[0] = Range { address: 0xC02, length: 509 };
    for_2[1] = Range { address: 0xB00, length: 3 };
    for list in [sixteens, for_31, for_1, for_2] {
        for byte in [0x00, 0x07, 0x08, 0x0F, 0x10, 0xF8, 0xFF] {
            list_case(script);
            script.link_list(LIST, &list);
            walk_and_show(script, listed(READ, 1, 0).byte(6, byte));
        }
    }
}

/// Lists that end at the end of memory and past it, at odd addresses too; and
/// addresses that would end at 0 again in 32 bits.
fn list_ends(script: &mut Script) {
    let two = list_of(&[(0x600, 200), (0x802, 312)]);
    let many = evenly(32, 0x600, 34, 16);
    for length in [MEMORY, MEMORY - 1] {
        for list in [&two, &many] {
            let last = length - 8 * list.len() as u64;
            for at in [last - 1, last, last + 1, last + 2, last + 8] {
                case_with_memory(script, length, false);
                let inside = ((length - at) / 8).min(list.len() as u64) as usize;
                script.link_list(at, &list[..inside]);
                let block = Block::new(READ).at(0, 1, 0).count(1);
                walk_and_show(script, block.list(at, list.len() as u64));
            }
        }
    }
    for (at, elements) in [
        (0xFFFF_FFF8, 1),
        (0xFFFF_FFF0, 2),
        (0xFFFF_FF00, 32),
        (ALL_32_BITS, 1),
        (MEMORY, 1),
        (0x1_0400, 2),
    ] {
        list_case(script);
        script.link_list(LIST, &two);
        walk_and_show(script, Block::new(WRITE).at(0, 1, 0).count(1).list(at, elements));
    }
    for at in [0x401, 0x4FF] {
        for command in [READ, WRITE] {
            list_case(script);
            script.link_list(at, &two);
            walk_and_show(script, Block::new(command).at(0, 1, 0).count(1).list(at, 2));
        }
    }
}

/// Lengths on both sides of what the count asks for, odd ones and zeros.
fn lengths(script: &mut Script) {
    for (first, second, third) in [
        (400, 24, 600),
        (400, 24, 599),
        (400, 24, 601),
        (400, 24, 600 + 512),
        (400, 24, 600 - 512),
        (401, 23, 600),
        (0, 424, 600),
        (424, 0, 600),
        (512, 512, 0),
        (0, 0, 1024),
        (0, 0, 0),
        (0, 0, 1023),
        (512, 0, 0),
        (1024, 0, 1),
        (1, 1, 1022),
    ] {
        both_ways(script, 2, &list_of(&[(0x600, first), (0x900, second), (0xA00, third)]));
    }
}

/// Sums that 16 bits or some more would lose, where all ranges are in memory,
/// and counts whose bytes they would lose.
fn long_lengths(script: &mut Script) {
    let half = 32_768;
    let mut commands = vec![
        (128, list_of(&[(0, half), (0x8000, half)])),
        (128, list_of(&[(0x600, 0), (0x800, 0)])),
        (256, list_of(&[(0, half), (0x8000, half)])),
        (256, evenly(4, 0, 0x2AAA, half)),
        (255, list_of(&[(0, 65_535), (0, 65_025)])),
        (255, list_of(&[(0, 65_535), (0, 65_023)])),
    ];
    commands.extend(off_by_lost_bits(1));
    for (count, list) in commands {
        large_case(script, count);
        script.link_list(LIST, &list);
        script.block(0, Block::new(READ).count(count).list(LIST, list.len() as u64));
        script.say_all([Line::Walk(0), Line::Steps, Line::Pick(0)]);
        script.say_all([Line::Written(u64::MAX), Line::Fields(0)]);
    }
}

/// An odd address of the first, a middle and the last range, of a range of
/// length 0 too; past the last element nobody looks.
fn odd_addresses(script: &mut Script) {
    let even = list_of(&[(0x600, 200), (0x800, 0), (0x900, 300), (0xB00, 12)]);
    for odd in 0..even.len() {
        let mut list = even.clone();
        list[odd].address += 1;
        both_ways(script, 1, &list);
    }
    both_ways(script, 1, &even);
    list_case(script);
    let mut longer = even.clone();
    longer.push(Range { address: 0xC01, length: 9 });
    script.link_list(LIST, &longer);
    walk_and_show(script, listed(READ, 1, even.len()));
}

/// Ranges that end at the end of memory and past it, of length 0 too; and ends
/// that would be 0 again in 32 bits. Each is the first of two, then the last.
fn range_ends(script: &mut Script) {
    for (length, address, bytes) in [
        (MEMORY, 0xE80, 384),
        (MEMORY, 0xE82, 384),
        (MEMORY, 0xE82, 383),
        (MEMORY, 0xE82, 382),
        (MEMORY, 0xFFE, 2),
        (MEMORY, 0xFFE, 3),
        (MEMORY, 0xFFE, 1),
        (MEMORY, 0x1000, 0),
        (MEMORY, 0x1000, 1),
        (MEMORY, 0x1002, 0),
        (MEMORY - 1, 0xE80, 383),
        (MEMORY - 1, 0xE80, 384),
        (MEMORY - 1, 0xFFE, 1),
        (MEMORY - 1, 0xFFE, 2),
        (MEMORY - 1, 0xFFE, 0),
        (MEMORY - 1, 0x1000, 0),
        (MEMORY, 0xFFFF_FFFE, 2),
        (MEMORY, 0xFFFF_FFFE, 4),
        (MEMORY, 0xFFFF_FFFE, 0),
        (MEMORY, 0xFFFF_FF00, 256),
        (MEMORY, 0x1_0600, 10),
        (MEMORY, 0x8000_0000, 0),
    ] {
        let edge = (address, bytes);
        let other = (0x700, 512 - bytes);
        for list in [list_of(&[edge, other]), list_of(&[other, edge])] {
            case_with_memory(script, length, false);
            script.link_list(LIST, &list);
            walk_and_show(script, listed(READ, 1, 2));
        }
    }
    let end = list_of(&[(0x600, 100), (0xE64, 412)]);
    both_ways(script, 1, &end);
    let past = list_of(&[(0x600, 100), (0xE66, 412)]);
    both_ways(script, 1, &past);
}

/// The codes that come before the list is read; then its ranges are not kept,
/// though it is right.
fn codes_before(script: &mut Script) {
    let right = evenly(2, 0x600, 0x200, 256);
    let read = listed(READ, 1, 2);
    for block in [
        read,
        read.command(0),
        read.command(3),
        read.command(15),
        read.subfunction(1),
        read.command(0).subfunction(1),
        read.next(0x21),
        read.command(0).next(0x21),
        read.command(3).next(1),
        read.unit(1),
        read.count(0),
        read.at(2, 1, 0),
        read.at(0, 2, 0),
        read.at(0, 1, 8),
        read.at(1, 1, 7).count(2),
        // Without SGM the list is data, and byte 6 says nothing.
        read.byte(0, READ),
    ] {
        for command in [READ, WRITE] {
            let own = if block.bytes[0] & 0x0F == READ { block.command(command) } else { block };
            list_case(script);
            script.link_list(LIST, &right);
            walk_and_show(script, own);
        }
    }
    for command in [WRITE, READ] {
        case_with_memory(script, MEMORY, true);
        script.link_list(LIST, &right);
        walk_and_show(script, listed(command, 1, 2));
    }
}

/// Several faults at once: the first in order wins.
fn order(script: &mut Script) {
    let short_odd = list_of(&[(0x601, 200), (0x800, 311)]);
    let short_outside = list_of(&[(0x600, 200), (0x2000, 311)]);
    let odd_outside = list_of(&[(0x601, 200), (0x2000, 312)]);
    let outside_odd = list_of(&[(0x2000, 200), (0x601, 312)]);
    let outside_and_odd = list_of(&[(0x2001, 512)]);
    let lists = [short_odd, short_outside, odd_outside, outside_odd, outside_and_odd];
    for list in &lists {
        both_ways(script, 1, list);
        // Before each of them, on a protected drive, 90H for the write.
        for command in [WRITE, READ] {
            case_with_memory(script, MEMORY, true);
            script.link_list(LIST, list);
            walk_and_show(script, listed(command, 1, list.len()));
        }
    }
    // A list outside, the part of it in memory having every other fault.
    for protected in [false, true] {
        for command in [READ, WRITE] {
            case_with_memory(script, MEMORY, protected);
            script.link_list(MEMORY - 8, &lists[0][..1]);
            let block = Block::new(command).at(0, 1, 0).count(1);
            walk_and_show(script, block.list(MEMORY - 8, 2));
        }
    }
    one_way(script, READ, 2, &lists[4]);
}
