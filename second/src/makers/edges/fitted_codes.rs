//! How much would have fitted, code by code: which codes tell no number, though
//! the command would have gone past an end too; and commands with a link list,
//! which tell one for the end of the drive alone.

use crate::drive::Drive;
use crate::makers::block::Block;
use crate::makers::edges::codes::run_chain;
use crate::makers::edges::fitted::{from_end, BENCH, LARGEST, MEMORY, THREE_HUNDRED};
use crate::makers::edges::lists::{evenly, list_of};
use crate::makers::edges::wide_ends::case_on;
use crate::makers::edges::{READ, WRITE};
use crate::makers::script::Script;
use crate::makers::ALL_32_BITS;
use crate::range::Range;
use crate::trial::line::Line;

/// Where the lists of these cases lie: past the IOPBs of the longest chain.
const LIST: u64 = 0x400;

/// All the cases of this file.
pub fn all(script: &mut Script) {
    cylinders(script);
    other_codes(script);
    both_ends(script);
    odd_next(script);
    lists_past_the_drive(script);
    ranges_outside(script);
    lists_outside(script);
    lists_with_other_codes(script);
}

/// These commands as reads and as writes, on an open drive and a protected one.
fn four_ways(script: &mut Script, drive: Drive, blocks: &[Block]) {
    for protected in [false, true] {
        for command in [READ, WRITE] {
            case_on(script, Drive { protected, ..drive }, MEMORY);
            let blocks: Vec<Block> = blocks.iter().map(|block| block.command(command)).collect();
            run_chain(script, &blocks);
        }
    }
}

/// A cylinder above its maximum, on places whose number would be the drive's
/// last or past it, and with data that ends past memory too.
fn cylinders(script: &mut Script) {
    let read = Block::new(READ).count(1).data(0x400);
    let mut blocks = vec![read.at(1, 1, 7).data(0x800), read.at(1, 1, 7).count(2)];
    for (cylinder, head, sector) in
        [(2, 0, 0), (2, 0, 1), (2, 1, 7), (3, 0, 0), (18, 0, 0), (65_535, 0, 0), (65_535, 255, 255)]
    {
        let past = read.at(cylinder, head, sector);
        blocks.extend([past, past.count(40), past.count(65_535).data(0xE00)]);
    }
    four_ways(script, BENCH, &blocks);
}

/// Every other code that is given without a list, each to a command that also
/// goes past an end. Byte 3 of each IOPB is not 0 before.
fn other_codes(script: &mut Script) {
    // Seven sectors are left on the drive, six in memory.
    let past = from_end(&BENCH, 7, 9);
    let mut blocks = vec![past, past.at(1, 2, 1), past.at(1, 1, 8), past.count(0)];
    blocks.extend([past.at(1, 2, 1).data(0xE00), past.at(1, 1, 8).data(0xE00)]);
    blocks.extend([past.count(0).data(0xE00), past.unit(1), past.unit(7).data(0xE00)]);
    blocks.extend([past.subfunction(1), past.subfunction(0x80).data(0xE00)]);
    let fit = from_end(&BENCH, 9, 9);
    blocks.extend([fit, fit.data(0xA00), fit.count(6), fit.count(7), fit.count(0)]);
    blocks.extend([0x01, 0x06, 0x07, 0xFF].map(|byte| fit.count(1).byte(3, byte)));
    blocks.extend([0x00, 0x01, 0x07, 0xFF].map(|byte| past.byte(3, byte)));
    four_ways(script, BENCH, &blocks);
    let quiet = [past, past.data(0xE00), fit, fit.data(ALL_32_BITS), past.sgm()];
    case_on(script, BENCH, MEMORY);
    let mut blocks = quiet.map(|block| block.command(0)).to_vec();
    blocks.extend([3, 5, 9, 15].map(|command| past.command(command)));
    blocks.extend([3, 5, 9, 15].map(|command| fit.command(command).data(0xE00)));
    run_chain(script, &blocks);
}

/// Past both ends, with another number for each: the drive's is told. Then past
/// the end of memory alone, where the drive has more.
fn both_ends(script: &mut Script) {
    let mut blocks = Vec::new();
    for (sectors, count, data) in [
        (4, 9, 0xC00),
        (1, 9, 0x400),
        (9, 10, 0xE00),
        (9, 10, 0xFFF),
        (9, 65_535, ALL_32_BITS),
        (32, 33, 0),
        (32, 33, 0x400),
        (9, 9, 0xC00),
        (32, 32, 0),
        (32, 32, 0x1FF),
        (32, 9, 1),
        (7, 7, 0x400),
        (6, 7, 0x400),
        (7, 6, 0x401),
    ] {
        blocks.push(from_end(&BENCH, sectors, count).data(data));
    }
    four_ways(script, BENCH, &blocks);
}

/// The last command of a chain past an end, whose next address is odd: 1EH with
/// CHEN set, and the number with CHEN clear.
fn odd_next(script: &mut Script) {
    for block in [from_end(&BENCH, 3, 9), Block::new(WRITE).count(9).data(0x400), Block::new(0)] {
        case_on(script, BENCH, MEMORY);
        run_chain(script, &[from_end(&BENCH, 5, 9), block.next_address(0x61)]);
        case_on(script, BENCH, MEMORY);
        run_chain(script, &[from_end(&BENCH, 5, 9), block.next(0x61)]);
    }
}

/// Commands with these lists, laid one after the other from `LIST` on, as reads
/// and as writes.
fn with_lists(script: &mut Script, drive: Drive, commands: &[(Block, Vec<Range>)]) {
    for command in [READ, WRITE] {
        case_on(script, drive, LARGEST);
        let mut at = LIST;
        let mut blocks = Vec::new();
        for (block, list) in commands {
            script.link_list(at, list);
            blocks.push(block.command(command).list(at, list.len() as u64));
            at += 8 * list.len() as u64;
        }
        run_chain(script, &blocks);
    }
}

/// Past the end of the drive with a list, be it right for the count, too short,
/// at odd addresses or outside memory: the drive's number is told.
fn lists_past_the_drive(script: &mut Script) {
    let mut commands = Vec::new();
    for sectors in [1, 2, 254, 255, 256, 257, 300] {
        let past = from_end(&THREE_HUNDRED, sectors, sectors + 1);
        let quarter = 128 * (sectors as u32 + 1);
        commands.push((past, evenly(4, 0x2000, 0, quarter)));
        commands.push((past.count(65_535), list_of(&[(0x2001, 512)])));
        commands.push((past, list_of(&[(0xFFFF_FFFE, 1_024), (0, 7)])));
    }
    let fit = from_end(&THREE_HUNDRED, 2, 2);
    commands.push((fit, list_of(&[(0x2000, 512), (0x3000, 512)])));
    with_lists(script, THREE_HUNDRED, &commands);
    with_lists(script, Drive { protected: true, ..THREE_HUNDRED }, &commands);
}

/// 4BH for a range, where whole sectors would have fitted: before the end of
/// that range, or in the ranges before it, or in all of them but the last byte.
fn ranges_outside(script: &mut Script) {
    let read = |count: u64| Block::new(READ).at(0, 1, 2).count(count);
    let mut commands = vec![
        (read(2), list_of(&[(0xFC02, 1_024)])),
        (read(2), list_of(&[(0xFC00, 1_024)])),
        (read(3), list_of(&[(0x2000, 1_024), (0xFE02, 512)])),
        (read(3), list_of(&[(0x2000, 1_024), (0xFE00, 512)])),
        (read(3), list_of(&[(0xFE02, 512), (0x2000, 1_024)])),
        (read(4), list_of(&[(0x2000, 512), (0xFA00, 1_536)])),
        (read(4), list_of(&[(0x2000, 512), (0xFB00, 1_536)])),
        (read(1), list_of(&[(0x2000, 512), (0x1_0002, 0)])),
        (read(1), list_of(&[(0x2000, 512), (0x1_0000, 0)])),
        (read(2), list_of(&[(0x2000, 512), (0xFFFF_FFFE, 512)])),
        (read(127), list_of(&[(0x202, 65_024)])),
        (read(100), list_of(&[(0x4000, 51_200)])),
    ];
    let mut many = evenly(32, 0x2000, 512, 512);
    many[31].address = 0x1_0000;
    commands.push((read(32), many));
    with_lists(script, THREE_HUNDRED, &commands);
}

/// 4BH for the list itself, at the end of memory and past it. Its address tells
/// no number, wherever it is.
fn lists_outside(script: &mut Script) {
    let read = Block::new(READ).at(0, 1, 2).count(1);
    let said = [(0xFF8, 1), (0xFF9, 1), (0xF01, 32), (0xF08, 32), (0x1000, 1), (0x1001, 1)];
    let far = [(0x1_0400, 2), (0xFFFF_FFF8, 1), (ALL_32_BITS, 32)];
    let mut blocks = Vec::new();
    for (address, elements) in said.into_iter().chain(far) {
        let listed = read.list(address, elements);
        // Of the last there are too many for the drive: 22 would have fitted.
        blocks.extend([listed, listed.count(9), listed.count(23)]);
    }
    for command in [READ, WRITE] {
        case_on(script, BENCH, MEMORY);
        script.link_list(0xFF8, &list_of(&[(0x800, 512)]));
        let blocks: Vec<Block> = blocks.iter().map(|block| block.command(command)).collect();
        run_chain(script, &blocks);
        script.say(Line::look_0(10));
    }
}

/// 1CH, 1FH and 00 of commands with a list, and the codes that come before.
fn lists_with_other_codes(script: &mut Script) {
    let read = |count: u64| Block::new(READ).at(0, 1, 2).count(count);
    let commands = [
        (read(2), list_of(&[(0x2000, 1_023)])),
        (read(2), list_of(&[(0x2000, 512), (0xFFFE, 513)])),
        (read(200), list_of(&[(0x2000, 512)])),
        (read(2), list_of(&[(0x2001, 1_024)])),
        (read(2), list_of(&[(0x2001, 512), (0xFE02, 512)])),
        (read(2), list_of(&[(0x2000, 512), (0x3000, 512)])),
        (read(0), list_of(&[(0x2000, 512)])),
        (read(2).unit(3), list_of(&[(0xFE02, 1_024)])),
        (read(2).at(10, 0, 0), list_of(&[(0xFE02, 1_024)])),
        (read(2).at(12, 2, 9), list_of(&[(0x2000, 1_024)])),
        (read(2).at(9, 3, 9), list_of(&[(0xFE02, 1_024)])),
        (read(2).at(9, 2, 10), list_of(&[(0xFE02, 1_024)])),
        (read(2).subfunction(2), list_of(&[(0xFE02, 1_024)])),
    ];
    with_lists(script, THREE_HUNDRED, &commands);
    with_lists(script, Drive { protected: true, ..THREE_HUNDRED }, &commands);
}
