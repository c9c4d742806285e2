//! A close that must not ask memory how much would have fitted: between walk and
//! close the IOPB is laid over by data, or changed by the caller, so that its
//! bytes tell another number; and a drive or a memory that becomes another one.

use crate::drive::Drive;
use crate::makers::block::Block;
use crate::makers::edges::fitted::{from_end, BENCH, MEMORY};
use crate::makers::edges::last_head::short;
use crate::makers::edges::lists::list_of;
use crate::makers::edges::wide_ends::case_on;
use crate::makers::edges::{image, memory, READ, WRITE};
use crate::makers::script::Script;
use crate::makers::ALL_32_BITS;
use crate::trial::line::Line;

/// Where the second command of these cases lies.
const SECOND: u64 = 0x600;

/// All the cases of this file.
pub fn all(script: &mut Script) {
    data_over_the_iopb(script);
    data_beside_the_status(script);
    data_over_the_status(script);
    put_over_the_fields(script);
    put_over_the_list(script);
    written_out_by_another(script);
    another_drive(script);
    another_memory(script);
}

/// Commands of which some tell a number and some do not.
fn commands() -> [Block; 7] {
    [
        from_end(&BENCH, 1, 2),
        from_end(&BENCH, 12, 65_535),
        Block::new(WRITE).count(9).data(0xA00),
        Block::new(READ).count(9).data(0x1001),
        Block::new(READ).at(2, 0, 0).count(40),
        Block::new(0),
        Block::new(READ).count(2).list(0x700, 1),
    ]
}

/// What comes to lie over them. As an IOPB each would tell another number, or
/// none.
fn others() -> [Block; 5] {
    [
        from_end(&BENCH, 5, 9).byte(3, 99),
        Block::new(READ).count(9).data(0x800).byte(3, 1),
        Block::new(WRITE).at(3, 1, 1).count(9).data(0xE00).byte(3, 0xFF),
        Block::new(READ).count(1).data(0x800).byte(3, 0),
        from_end(&BENCH, 7, 8).list(0x700, 1).byte(3, 2),
    ]
}

/// A ground with a list of one range, that ends past memory, at 700H.
fn ground(script: &mut Script) {
    case_on(script, BENCH, MEMORY);
    script.link_list(0x700, &list_of(&[(0xC02, 1_024)]));
}

/// A first command at 0 that reads a sector to this address, in which the bytes
/// of a block lie from an offset on; and the second command.
fn read_over(script: &mut Script, data: u64, offset: u64, over: &[u8], second: Block) {
    ground(script);
    script.say(Line::Disk { offset: 512 * 9 + offset, bytes: over.to_vec() });
    script.block(0, Block::new(READ).at(0, 1, 1).count(1).data(data).next(SECOND));
    script.block(SECOND, second);
    script.say(Line::Walk(0));
}

/// The whole IOPB is laid over by another before its command closes. Picked too
/// early it has to wait.
fn data_over_the_iopb(script: &mut Script) {
    for second in commands() {
        for over in others() {
            read_over(script, SECOND - 0x100, 0x100, &over.bytes, second);
            script.say_all([Line::Pick(1), Line::Pick(0), Line::Fields(SECOND), Line::Pick(1)]);
            script.say(Line::Fields(SECOND));
        }
    }
}

/// All but the status bytes is laid over: the command may close before that or
/// after it, with the same number.
fn data_beside_the_status(script: &mut Script) {
    for second in commands() {
        for over in &others()[..2] {
            for order in [[0, 1], [1, 0]] {
                read_over(script, SECOND + 4, 0, &over.bytes[4..], second);
                script.picks(&order);
                script.say(Line::Fields(SECOND));
            }
        }
    }
}

/// The status bytes alone are laid over, up to byte 3 or to the one before it.
fn data_over_the_status(script: &mut Script) {
    for second in commands() {
        for end in [SECOND + 4, SECOND + 3] {
            let first = end - 512;
            read_over(script, first, SECOND - first, &[0x92, 0x10, 0x13], second);
            script.say_all([Line::Fields(SECOND), Line::Written(1), Line::Fields(SECOND)]);
            script.say_all([Line::Written(u64::MAX), Line::Fields(SECOND)]);
        }
    }
}

/// The caller changes bytes of the IOPB after the walk: status byte 3, the
/// count, the place, the address, or all of it.
fn put_over_the_fields(script: &mut Script) {
    let puts: [(u64, &[u8]); 6] = [
        (3, &[0x05]),
        (8, &[0, 3]),
        (8, &[0, 40, 0, 1, 0, 2]),
        (0x0A, &[0, 9]),
        (0x10, &[0, 0, 0, 0]),
        (0x10, &[0, 0, 0x0C, 1]),
    ];
    for command in commands() {
        ground(script);
        // The same chain again for each: a walk, other bytes, and the close.
        for (at, bytes) in puts {
            script.block(SECOND, command);
            script.say(Line::Walk(SECOND));
            script.put(SECOND + at, bytes);
            script.say_all([Line::Pick(0), Line::Fields(SECOND)]);
        }
        for over in others() {
            script.block(SECOND, command);
            script.say(Line::LentWalk(SECOND));
            script.block(SECOND, over);
            script.say_all([Line::LentPick(0), Line::Fields(SECOND)]);
        }
    }
}

/// A list that is put right after the walk, or away from it: no number is told
/// either way.
fn put_over_the_list(script: &mut Script) {
    for range in [(0x800, 1_024), (0xC02, 1_024), (0xFFFF_FFFE, 1_024)] {
        ground(script);
        script.block(SECOND, Block::new(READ).count(2).list(0x700, 1));
        script.say(Line::Walk(SECOND));
        script.link_list(0x700, &list_of(&[range]));
        script.say_all([Line::Pick(0), Line::Fields(SECOND)]);
    }
}

/// A write takes the status bytes of a failing command to the disk after its
/// close, and a read lays them over the IOPB of the next one, which fails too.
fn written_out_by_another(script: &mut Script) {
    let (drive, memory) = (from_end(&BENCH, 12, 13), Block::new(READ).count(9).data(0xA00));
    for (first, last) in [(drive, memory), (memory, drive)] {
        case_on(script, BENCH, MEMORY);
        script.block(0x000, first.next(0x20));
        script.block(0x020, Block::new(WRITE).at(0, 0, 5).count(1).data(0).next(0x40));
        script.block(0x040, Block::new(READ).at(0, 0, 5).count(1).data(0x400).next(0x400));
        script.block(0x400, last);
        script.say_all([Line::Walk(0), Line::Pick(3), Line::Written(3), Line::Fields(0x400)]);
        script.say_all([Line::Pick(3), Line::Fields(0x400), Line::Fields(0), Line::look_0(5)]);
    }
}

/// Another drive with its image after the walk: the number is that of the walk.
fn another_drive(script: &mut Script) {
    for drive in [short(1, 1, 9, 9), short(0, 1, 7, 7), short(31, 0, 0, 0), short(3, 0, 7, 7)] {
        for protected in [false, true] {
            let commands = [from_end(&BENCH, 4, 5), from_end(&BENCH, 1, 65_535)];
            case_on(script, BENCH, MEMORY);
            script.block(0, commands[0].next(32));
            script.block(32, commands[1].command(WRITE));
            script.say_all([Line::Walk(0), Line::Drive(Drive { protected, ..drive })]);
            script.say_all([image(drive.number_of_sectors()), Line::Written(u64::MAX)]);
            script.say_all([Line::Fields(0), Line::Fields(32)]);
        }
    }
}

/// A longer or a shorter memory after the walk, and then a walk of the same
/// commands in it.
fn another_memory(script: &mut Script) {
    for length in [MEMORY + 511, MEMORY + 512, 0x2000, 0xC00, 0x800, 0x60] {
        let commands =
            [0xA00, 0x0E01, ALL_32_BITS].map(|data| Block::new(READ).count(9).data(data));
        let lay = |script: &mut Script| {
            script.block(0x00, commands[0].next(0x20));
            script.block(0x20, commands[1].command(WRITE).next(0x40));
            script.block(0x40, commands[2]);
        };
        case_on(script, BENCH, MEMORY);
        lay(script);
        script.say_all([Line::Walk(0), memory(length), Line::Written(u64::MAX)]);
        script.say_all([0, 0x20, 0x40].map(Line::Fields));
        lay(script);
        script.say_all([Line::Walk(0), Line::Written(u64::MAX)]);
        script.say_all([0, 0x20, 0x40].map(Line::Fields));
    }
}
