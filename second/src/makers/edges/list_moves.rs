//! What moves where by a link list: sectors that straddle ranges, ranges that
//! overlap, and data over the list or over the command's own IOPB.

use crate::makers::block::Block;
use crate::makers::edges::lists::{
    both_ways, evenly, list_case, list_of, listed, walk_and_show, LIST,
};
use crate::makers::edges::{READ, WRITE};
use crate::makers::script::Script;
use crate::range::Range;
use crate::trial::line::Line;

/// All the cases of this file.
pub fn all(script: &mut Script) {
    straddling(script);
    overlapping(script);
    one_range(script);
    over_own_list(script);
    over_a_later_list(script);
    list_over_iopbs(script);
    over_own_status(script);
}

/// Sectors over two, three and many ranges, with odd lengths, lengths of 1 and
/// of 0; and ranges that hold more than one sector.
fn straddling(script: &mut Script) {
    // The manual's own: of each sector a head of 16 bytes and the rest.
    let heads = [(0x600, 16), (0x700, 496), (0x620, 16), (0x900, 496), (0x640, 16), (0xB00, 496)];
    let mut ones: Vec<Range> = evenly(31, 0x600, 6, 1);
    ones.push(Range { address: 0xA00, length: 512 - 31 });
    let mut ones_at_end = vec![Range { address: 0xA00, length: 1024 - 31 }];
    ones_at_end.extend(evenly(31, 0x600, 6, 1));
    let mut ones_between = vec![Range { address: 0x900, length: 500 }];
    ones_between.extend(evenly(30, 0x600, 10, 1));
    ones_between.push(Range { address: 0xC00, length: 494 });
    for (count, list) in [
        (1, list_of(&[(0x600, 200), (0x902, 312)])),
        (1, list_of(&[(0x902, 511), (0x600, 1)])),
        (1, list_of(&[(0x902, 1), (0x600, 511)])),
        (1, list_of(&[(0x600, 100), (0xA00, 300), (0x802, 112)])),
        (1, list_of(&[(0x600, 101), (0x800, 0), (0x802, 301), (0xF00, 0), (0xA00, 110)])),
        (2, list_of(&[(0x600, 512), (0x900, 512)])),
        (2, list_of(&[(0x600, 511), (0x900, 513)])),
        (2, list_of(&[(0x600, 513), (0x900, 511)])),
        (2, list_of(&[(0x600, 300), (0xA00, 500), (0x802, 224)])),
        (2, list_of(&[(0x600, 512), (0xB00, 0), (0x900, 512), (0xC00, 0)])),
        (3, list_of(&[(0x600, 1280), (0xC00, 256)])),
        (3, list_of(&[(0x600, 256), (0x802, 1024), (0xE00, 256)])),
        (3, list_of(&heads)),
        (1, evenly(32, 0x600, 34, 16)),
        (3, evenly(32, 0x600, 50, 48)),
        (1, ones),
        (2, ones_at_end),
        (2, ones_between),
    ] {
        both_ways(script, count, &list);
    }
}

/// Ranges of one command that overlap: one inside another on either side, one
/// over the end of another, the same twice; within a step and over steps.
fn overlapping(script: &mut Script) {
    for (count, list) in [
        (1, list_of(&[(0x600, 400), (0x640, 112)])),
        (1, list_of(&[(0x640, 112), (0x600, 400)])),
        (1, list_of(&[(0x600, 256), (0x680, 256)])),
        (1, list_of(&[(0x680, 256), (0x600, 256)])),
        (1, list_of(&[(0x600, 256), (0x600, 256)])),
        (1, list_of(&[(0x600, 201), (0x6C8, 311)])),
        (1, list_of(&[(0x6C8, 311), (0x600, 201)])),
        (1, list_of(&[(0x600, 300), (0x680, 100), (0x690, 112)])),
        (1, list_of(&[(0x690, 112), (0x680, 100), (0x600, 300)])),
        (1, evenly(32, 0x600, 2, 16)),
        (2, list_of(&[(0x600, 512), (0x700, 512)])),
        (2, list_of(&[(0x700, 512), (0x600, 512)])),
        (2, list_of(&[(0x600, 700), (0x640, 324)])),
        (2, list_of(&[(0x600, 324), (0x5C0, 700)])),
        (2, list_of(&[(0x800, 300), (0x600, 600), (0x810, 124)])),
        (3, evenly(3, 0x600, 2, 512)),
    ] {
        both_ways(script, count, &list);
    }
}

/// A list of one range, and the same command without a list.
fn one_range(script: &mut Script) {
    for count in [1, 3] {
        for command in [READ, WRITE] {
            list_case(script);
            script.link_list(LIST, &list_of(&[(0x702, 512 * count as u32)]));
            walk_and_show(script, listed(command, count, 1));
            list_case(script);
            walk_and_show(script, Block::new(command).at(0, 1, 0).count(count).data(0x702));
        }
    }
}

/// A list among its own data. A read writes over it in its first step, and its
/// later steps go by the copied list all the same; a write writes it out.
fn over_own_list(script: &mut Script) {
    for at in [0x600, 0x640, 0x7F1] {
        for command in [READ, WRITE] {
            list_case(script);
            let list = list_of(&[(0x600, 500), (0x900, 400), (0xB02, 636)]);
            script.link_list(at, &list);
            walk_and_show(script, Block::new(command).at(0, 1, 0).count(3).list(at, 3));
        }
    }
}

/// An earlier command's data comes to lie over the list of a later one; the
/// walk has copied that, so it changes nothing and nobody waits.
fn over_a_later_list(script: &mut Script) {
    let list = list_of(&[(0x900, 300), (0xB00, 212)]);
    for first_pick in [0, 1] {
        for command in [READ, WRITE] {
            list_case(script);
            script.link_list(0x680, &list);
            script.block(0, Block::new(READ).at(0, 0, 3).count(1).data(0x600).next(0x20));
            script.block(0x20, Block::new(command).at(0, 1, 0).count(1).list(0x680, 2));
            script.say_all([Line::Walk(0), Line::Pick(first_pick), Line::Pick(1 - first_pick)]);
            script.say_all([Line::look_0(8), Line::Fields(0x20)]);
            // The list is gone: walked again, the chain is another.
            script.say_all([Line::Walk(0), Line::Written(u64::MAX), Line::Fields(0x20)]);
        }
    }
}

/// Lists that lie over an IOPB of the chain: over the end of their own, and
/// over the status bytes of another, whose close changes nothing.
fn list_over_iopbs(script: &mut Script) {
    for command in [READ, WRITE] {
        list_case(script);
        script.block(0, Block::new(command).at(0, 1, 0).count(1).list(0x18, 2));
        script.link_list(0x18, &list_of(&[(0x600, 300), (0x900, 212)]));
        script.say_all([Line::Walk(0), Line::Written(u64::MAX), Line::Fields(0), Line::look_0(8)]);
    }
    // The element's last byte is byte 0 of the IOPB at 40H: its address ends
    // with 20H, which is a chained No Operation, and with 60H after its close.
    for picks in [[0, 1, 2], [1, 0, 2], [2, 1, 0]] {
        for command in [READ, WRITE] {
            list_case(script);
            script.link_list(0x39, &list_of(&[(0x620, 512)]));
            script.block(0, Block::new(0).next(0x40));
            script.block(0x40, Block::new(0).next(0x60));
            script.block(0x60, Block::new(command).at(0, 1, 0).count(1).list(0x39, 1));
            script.say(Line::Walk(0));
            script.picks(&picks);
            script.say_all([Line::Fields(0x40), Line::Fields(0x60), Line::look_0(8)]);
        }
    }
}

/// Ranges over the command's own IOPB, and over its status bytes alone: the
/// status is written last, with the copied byte 0.
fn over_own_status(script: &mut Script) {
    for range in [(0x40, 4), (0x3E, 3), (0x42, 1), (0x44, 9), (0x3C, 40), (0x30, 200)] {
        for command in [READ, WRITE] {
            for ranges in [[range, (0x800, 1024 - range.1)], [(0x800, 1024 - range.1), range]] {
                list_case(script);
                script.link_list(LIST, &list_of(&ranges));
                script.block(0x40, listed(command, 2, 2));
                script.say_all([Line::Walk(0x40), Line::Pick(0), Line::Fields(0x40)]);
                script.say_all([
                    Line::Pick(0),
                    Line::Fields(0x40),
                    Line::look_0(8),
                    Line::look_0(9),
                ]);
            }
        }
    }
}
