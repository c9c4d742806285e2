//! How much would have fitted, row by row: Line 56 to 63 of the rules, each as a
//! read and as a write. The status at the end of each command shows the number.

use crate::drive::Drive;
use crate::makers::block::Block;
use crate::makers::edges::last_head::short;
use crate::makers::edges::lists::list_of;
use crate::makers::edges::wide_ends::case_on;
use crate::makers::edges::{READ, WRITE};
use crate::makers::script::Script;
use crate::makers::ALL_32_BITS;
use crate::place::counted_to;
use crate::trial::line::Line;

/// The bench's drive: 32 sectors, the last of them at 1, 1, 7.
pub const BENCH: Drive = short(1, 1, 7, 7);
/// 300 sectors: ten cylinders of three heads, each with ten.
pub const THREE_HUNDRED: Drive = short(9, 2, 9, 9);
/// The bench's memory.
pub const MEMORY: u64 = 0x1000;
/// The largest memory, which has 128 sectors.
pub const LARGEST: u64 = 65_536;

/// All the cases of this file.
pub fn all(script: &mut Script) {
    end_of_drive(script);
    end_of_memory(script);
    with_lists(script);
    on_a_protected_drive(script);
}

/// A read of so many sectors to 400H, from one that has so many sectors of the
/// drive from it on.
pub fn from_end(drive: &Drive, sectors: u64, count: u64) -> Block {
    let place = counted_to(drive, drive.number_of_sectors() - sectors).expect("a sector there");
    Block::new(READ).at(place.cylinder, place.head, place.sector).count(count).data(0x400)
}

/// Walks and runs each command by itself, all at address 0 and in one case, and
/// shows the status of each.
pub fn each_alone(script: &mut Script, blocks: &[Block]) {
    for block in blocks {
        script.block(0, *block);
        script.say_all([Line::Walk(0), Line::Written(u64::MAX), Line::Fields(0)]);
    }
}

/// These commands on a ground of their own, as reads and then as writes.
pub fn both_ways(script: &mut Script, drive: Drive, memory_bytes: u64, blocks: &[Block]) {
    for command in [READ, WRITE] {
        case_on(script, drive, memory_bytes);
        let blocks: Vec<Block> = blocks.iter().map(|block| block.command(command)).collect();
        each_alone(script, &blocks);
    }
}

/// The last sector, 300 sectors, and cylinders above the maximum: Line 56, 57
/// and 60.
fn end_of_drive(script: &mut Script) {
    let counts = [1, 2, 65_535];
    both_ways(script, BENCH, MEMORY, &counts.map(|count| from_end(&BENCH, 1, count)));
    let starts = [253, 254, 255, 256, 257];
    let long = starts.map(|sectors| from_end(&THREE_HUNDRED, sectors, 300));
    both_ways(script, THREE_HUNDRED, MEMORY, &long);
    let past = Block::new(READ).at(2, 0, 0).data(0x400);
    both_ways(script, BENCH, MEMORY, &[past.count(1), past.count(40)]);
}

/// Addresses near the end of the largest memory and of the bench's: Line 58 and
/// 59.
fn end_of_memory(script: &mut Script) {
    let addresses = [0xFFFF, 0xFE01, 0xFE00, 0xFDFF, 0xFC00, 0xFBFF, 0x201, 0x200, 0x1FF, 1, 0];
    let long = addresses.map(|address| Block::new(READ).count(128).data(address));
    both_ways(script, THREE_HUNDRED, LARGEST, &long);
    let addresses = [0xE00, 0xE01, 0xFFF, 0x1000, 0x1001, ALL_32_BITS];
    let one = addresses.map(|address| Block::new(READ).count(1).data(address));
    both_ways(script, BENCH, MEMORY, &one);
}

/// The end of the drive with a list, a range outside memory, and the list itself
/// outside: Line 61, and beside each what is right.
fn with_lists(script: &mut Script) {
    let last = |count: u64| from_end(&BENCH, 1, count);
    let first = Block::new(READ).count(1);
    for (range, block) in [
        ((0x800, 1_024), last(2).list(0x400, 1)),
        ((0x800, 512), last(1).list(0x400, 1)),
        ((0xE02, 512), first.list(0x400, 1)),
        ((0xE00, 512), first.list(0x400, 1)),
        // a whole sector would have fitted, and nothing is told of it
        ((0xC02, 1_024), first.count(2).list(0x400, 1)),
        ((0xC00, 1_024), first.count(2).list(0x400, 1)),
        ((0x800, 512), first.list(0xFF9, 1)),
    ] {
        for command in [READ, WRITE] {
            case_on(script, BENCH, MEMORY);
            script.link_list(0x400, &list_of(&[range]));
            each_alone(script, &[block.command(command)]);
        }
    }
}

/// Past both ends, and a write that would go past the end of memory: Line 62 and
/// 63, on an open drive and on a protected one.
fn on_a_protected_drive(script: &mut Script) {
    for protected in [false, true] {
        let drive = Drive { protected, ..BENCH };
        let past_memory = Block::new(WRITE).count(2).data(0xE00);
        let both = from_end(&BENCH, 1, 2).data(0xE00);
        both_ways(script, drive, MEMORY, &[both, past_memory, past_memory.count(1)]);
    }
}
