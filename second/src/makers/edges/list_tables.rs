//! Records with ranges, made by hand: every line of number 9 that asks for
//! them, and what nobody looks at; and what a walk leaves in the table.

use crate::makers::edges::lists::{
    case_with_memory, evenly, large_case, list_case, list_of, listed, off_by_lost_bits, LIST,
    MEMORY, SECTOR,
};
use crate::makers::edges::{memory, READ, WRITE};
use crate::makers::script::Script;
use crate::makers::ALL_32_BITS;
use crate::range::Range;
use crate::record::Record;
use crate::trial::line::Line;

const SGM: u8 = 0x10;

/// All the cases of this file.
pub fn all(script: &mut Script) {
    numbers_of_ranges(script);
    lengths(script);
    long_lengths(script);
    ends(script);
    not_looked_at(script);
    byte_0(script);
    counts(script);
    begun(script);
    spoiled_after_the_walk(script);
    left_by_a_walk(script);
}

/// A record with this list, naming sectors 8 and 9. Its data address is nowhere
/// in memory, since nobody asks for it.
fn record_with(command: u8, list: &[Range]) -> Record {
    let mut record = Record {
        iopb: 0x40,
        data: 0xFFFF_FFFF,
        sector: 8,
        count: 2,
        byte0: SGM | command,
        ranges: list.len() as u16,
        ..Record::default()
    };
    record.list[..list.len()].copy_from_slice(list);
    record
}

/// Calls on a table of one record, each after the other.
fn calls(script: &mut Script) {
    script.say_all([Line::Commands(1), Line::Steps, Line::Pick(1), Line::Pick(0)]);
    script.picks(&[]);
    script.say_all([Line::Written(0), Line::LentPick(0), Line::Fields(0x40)]);
    script.picks(&[0, 1]);
    script.say_all([Line::Written(u64::MAX), Line::look_0(8), Line::look_0(9)]);
}

/// A table of one record, in a case of its own.
fn one(script: &mut Script, record: Record) {
    list_case(script);
    script.record(0, record);
    calls(script);
}

/// Full records, and records that claim more ranges than there is room for;
/// some claims are small again in 8 or in 15 bits.
fn numbers_of_ranges(script: &mut Script) {
    let full = record_with(READ, &evenly(32, 0x600, 36, 32));
    let two = record_with(WRITE, &list_of(&[(0x600, 600), (0xA00, 424)]));
    for (record, numbers) in [
        (full, vec![32, 33, 31, 64, 256, 65_535, 0x8020]),
        (two, vec![2, 3, 32, 33, 1, 258, 0x8002, 65_535]),
    ] {
        for ranges in numbers {
            one(script, Record { ranges, ..record });
        }
    }
}

/// Lengths on both sides of the count, odd ones and zeros.
fn lengths(script: &mut Script) {
    for (first, second) in [
        (600, 424),
        (600, 423),
        (600, 425),
        (601, 423),
        (600, 424 + 512),
        (512, 0),
        (0, 1024),
        (1024, 0),
        (0, 0),
    ] {
        for command in [READ, WRITE] {
            one(script, record_with(command, &list_of(&[(0x600, first), (0xA00, second)])));
        }
    }
}

/// Sums that are right again in 16 bits or some more, beside right ones, with
/// all ranges in memory.
fn long_lengths(script: &mut Script) {
    for (count, list) in off_by_lost_bits(2) {
        large_case(script, SECTOR + count);
        script.record(0, Record { count: count as u16, ..record_with(READ, &list) });
        calls(script);
    }
}

/// Ranges at the end of memory and past it, of length 0 too; and ends that
/// would be 0 again in 32 bits. Odd addresses are taken.
fn ends(script: &mut Script) {
    for (length, address, bytes) in [
        (MEMORY, 0xE80, 384),
        (MEMORY, 0xE81, 384),
        (MEMORY, 0xE81, 383),
        (MEMORY, 0x1000, 0),
        (MEMORY, 0x1001, 0),
        (MEMORY, 0x1000, 1),
        (MEMORY, 0xFFF, 1),
        (MEMORY - 1, 0xFFF, 0),
        (MEMORY - 1, 0xFFF, 1),
        (MEMORY - 1, 0x1000, 0),
        (MEMORY, 0xFFFF_FFFF, 1),
        (MEMORY, 0xFFFF_FFFF, 0),
        (MEMORY, 0xFFFF_FF00, 256),
        (MEMORY, 0x601, 77),
        (MEMORY, 0x601, 0),
    ] {
        let edge = (address, bytes);
        let other = (0x800, 1024 - bytes);
        for list in [list_of(&[edge, other]), list_of(&[other, edge])] {
            case_with_memory(script, length, false);
            script.record(0, record_with(READ, &list));
            calls(script);
        }
    }
}

/// Ranges past the number that the record claims, ranges of records that move
/// nothing, records not in use, and the list's own address.
fn not_looked_at(script: &mut Script) {
    let bad = list_of(&[(0xFFFF_FFFF, 65_535), (0x1001, 9)]);
    let mut past = record_with(READ, &list_of(&[(0x600, 600), (0xA00, 424)]));
    past.list[2..4].copy_from_slice(&bad);
    one(script, past);
    one(script, Record { ranges: 3, ..past });
    for (byte0, code) in [(READ, 0x1C), (WRITE, 0x4B), (SGM | READ, 0x1F), (0, 0), (SGM, 0), (7, 0)]
    {
        for ranges in [2, 33, 65_535] {
            one(script, Record { byte0, code, ranges, ..record_with(0, &bad) });
        }
    }
    for data in [0, 1, 0xFFF, 0x1000, 0xFFFF_FFF0] {
        one(script, Record { data, ..record_with(READ, &list_of(&[(0x600, 1_024)])) });
    }
    // The second of two records, in use and not.
    for commands in [2, 1] {
        list_case(script);
        script.record(0, Record::default());
        script.record(1, record_with(READ, &bad));
        script.say_all([Line::Commands(commands), Line::Steps, Line::Pick(0), Line::Pick(1)]);
        script.say(Line::Written(u64::MAX));
    }
}

/// Byte 0 with SGM and no ranges, and without SGM and with ranges: the number
/// of ranges decides, and byte 0 is closed as it was copied.
fn byte_0(script: &mut Script) {
    let list = list_of(&[(0x600, 600), (0xA00, 424)]);
    for command in [READ, WRITE] {
        for byte0 in [command, SGM | command, 0xF0 | command] {
            one(script, Record { byte0, ..record_with(command, &list) });
            for data in [0xC00, 0xC01] {
                let listless = Record { ranges: 0, data, ..record_with(command, &list) };
                one(script, Record { byte0, ..listless });
            }
        }
    }
}

/// Counts beside the one that the lengths add up to, and a count of zero.
fn counts(script: &mut Script) {
    for count in [0, 1, 2, 3, 130, 0xFFFF] {
        one(script, Record { count, ..record_with(READ, &list_of(&[(0x600, 600), (0xA00, 424)])) });
    }
    one(script, Record { count: 0, ..record_with(READ, &list_of(&[(0x600, 0), (0xA00, 0)])) });
    // Past the end of the drive, or a write to a protected one, with a list.
    for sector in [30, 31] {
        one(script, Record { sector, ..record_with(WRITE, &list_of(&[(0x600, 1_024)])) });
    }
    for command in [READ, WRITE] {
        case_with_memory(script, MEMORY, true);
        script.record(0, record_with(command, &list_of(&[(0x600, 1_024)])));
        calls(script);
    }
}

/// Records with steps taken: the next step goes on in the middle of the list.
/// A finished record is looked at all the same.
fn begun(script: &mut Script) {
    let three = list_of(&[(0x600, 700), (0xA01, 500), (0x900, 0), (0xC00, 336)]);
    for command in [READ, WRITE] {
        for taken in [0, 1, 2, 3, 4] {
            one(script, Record { taken, count: 3, ..record_with(command, &three) });
        }
    }
    for last in [335, 337] {
        let mut list = three.clone();
        list[3].length = last;
        one(script, Record { taken: 3, count: 3, ..record_with(READ, &list) });
    }
}

/// Three steps by a list, spoiled in the middle and mended.
fn spoiled_after_the_walk(script: &mut Script) {
    let list = list_of(&[(0x600, 700), (0xA00, 836)]);
    let at = |index: u64, address: u32, length: u32| Line::Range {
        place: 0,
        index,
        range: Range { address, length },
    };
    for spoiler in [
        at(0, 0x600, 701),
        at(0, 0x601, 700),
        at(1, 0xCBC, 836),
        at(1, 0xCBD, 836),
        at(2, 0xFFFF_FFFF, 1),
        at(31, 0, 1),
        Line::Spoil { place: 0, field: 7, value: 1 },
        Line::Spoil { place: 0, field: 7, value: 0 },
        Line::Spoil { place: 0, field: 7, value: 3 },
        Line::Spoil { place: 0, field: 7, value: 33 },
        Line::Spoil { place: 0, field: 5, value: u64::from(WRITE) },
        Line::Spoil { place: 0, field: 1, value: ALL_32_BITS },
        memory(0xD44),
        memory(0xD43),
    ] {
        list_case(script);
        script.link_list(LIST, &list);
        script.block(0, listed(READ, 3, 2));
        script.say_all([Line::Walk(0), Line::Pick(0), spoiler, Line::Steps, Line::Pick(0)]);
        script.picks(&[0, 3]);
        script.say_all([Line::Written(1), at(0, 0x600, 700), at(1, 0xA00, 836)]);
        script.spoil(0, 7, 2);
        script.say_all([Line::Written(u64::MAX), Line::look_0(9), Line::Fields(0)]);
    }
}

/// A table full of other things before the walk: the walk sets all ranges of
/// its own records, and leaves those past the last alone; all on a refusal.
fn left_by_a_walk(script: &mut Script) {
    let junk = Record { ranges: 65_535, count: 9, ..record_with(READ, &evenly(32, 1, 3, 5)) };
    let right = list_of(&[(0x600, 100), (0xA00, 412)]);
    let odd = list_of(&[(0x601, 100), (0xA00, 412)]);
    let block = listed(READ, 1, 2);
    for (list, first) in [
        (&right, block),
        (&odd, block),
        (&right, block.count(2)),
        (&right, block.count(0)),
        (&right, block.list(MEMORY - 15, 2)),
        (&right, block.command(0)),
        (&right, block.byte(0, READ)),
        (&right, block.next(1)),
        (&right, block.next(0)),
    ] {
        for lent in [false, true] {
            list_case(script);
            script.record(0, junk);
            script.record(1, junk);
            script.record(39, junk);
            script.link_list(LIST, list);
            script.block(0, first);
            script.say(if lent { Line::LentWalk(0) } else { Line::Walk(0) });
            script.say_all([Line::Steps, Line::LentPick(0), Line::Written(u64::MAX)]);
        }
    }
}
