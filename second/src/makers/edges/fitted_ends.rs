//! How much would have fitted at the end of the drive and of memory: on both
//! sides of 255 sectors and of each whole sector, on drives of many shapes and in
//! memories of many lengths.

use crate::board::SECTOR_BYTES;
use crate::drive::Drive;
use crate::makers::block::Block;
use crate::makers::edges::codes::run_chain;
use crate::makers::edges::fitted::{
    both_ways, each_alone, from_end, BENCH, LARGEST, MEMORY, THREE_HUNDRED,
};
use crate::makers::edges::last_head::short;
use crate::makers::edges::wide_ends::{case_on, FEW_HEADS, MANY_HEADS};
use crate::makers::edges::{READ, WRITE};
use crate::makers::script::Script;
use crate::makers::wide_drives::drive_of;
use crate::makers::ALL_32_BITS;

/// Drives of 600 sectors each: equal heads, a shorter last head, one shorter
/// head alone, cylinders of one sector, and one cylinder.
const SIX_HUNDRED: [Drive; 5] = [
    short(9, 2, 19, 19),
    short(9, 2, 20, 17),
    short(149, 0, 9, 3),
    short(599, 0, 0, 0),
    short(0, 2, 255, 87),
];

/// How many sectors there are up to the drive's end. In 8 bits 256 and 512 are
/// 0, and others are small again.
const UP_TO_END: [u64; 12] = [1, 2, 3, 127, 128, 254, 255, 256, 257, 300, 511, 512];

/// All the cases of this file.
pub fn all(script: &mut Script) {
    for drive in SIX_HUNDRED {
        past_the_drive(script, drive, LARGEST);
        up_to_the_end(script, drive);
    }
    let equal = SIX_HUNDRED[0];
    past_the_drive(script, Drive { protected: true, ..equal }, 2_048);
    up_to_the_end(script, Drive { protected: true, ..equal });
    whole_drives(script);
    largest_drives(script);
    whole_sectors_of_memory(script);
    fitting_exactly(script);
    small_memories(script);
    far_addresses(script);
}

/// Reads and writes by turns.
fn by_turns(blocks: &[Block]) -> Vec<Block> {
    in_turn(blocks, [READ, WRITE])
}

/// These commands as one and the other by turns.
fn in_turn(blocks: &[Block], commands: [u8; 2]) -> Vec<Block> {
    let turn = |(k, block): (usize, &Block)| block.command(commands[k % 2]);
    blocks.iter().enumerate().map(turn).collect()
}

/// One sector too many, and as many too many as can be.
fn past_the_drive(script: &mut Script, drive: Drive, memory_bytes: u64) {
    let mut blocks = Vec::new();
    for sectors in UP_TO_END {
        blocks.extend([from_end(&drive, sectors, sectors + 1), from_end(&drive, sectors, 65_535)]);
    }
    // The other way round in the second half, so that both are read and written.
    let (near, far) = blocks.split_at(13);
    case_on(script, drive, memory_bytes);
    run_chain(script, &[by_turns(near), by_turns(far)].concat());
}

/// Exactly up to the drive's end, so that the end of memory is asked for next:
/// from 400H on it has 126 sectors.
fn up_to_the_end(script: &mut Script, drive: Drive) {
    let blocks = UP_TO_END.map(|sectors| from_end(&drive, sectors, sectors));
    for commands in [[READ, WRITE], [WRITE, READ]] {
        case_on(script, drive, LARGEST);
        run_chain(script, &in_turn(&blocks, commands));
    }
}

/// From the first sector on, on drives that have just so many sectors.
fn whole_drives(script: &mut Script) {
    for sectors in [1, 2, 254, 255, 256, 257, 300, 511, 512] {
        let drive = drive_of(sectors).expect("so few sectors lie on one cylinder");
        let counts = [sectors, sectors + 1, 2 * sectors, 2 * sectors + 1, 65_535];
        let blocks = counts.map(|count| from_end(&drive, sectors, count));
        case_on(script, drive, LARGEST);
        run_chain(script, &[by_turns(&blocks), by_turns(&blocks[1..])].concat());
    }
}

/// The largest drives that an image can have, where the number needs 15 or 16
/// bits.
fn largest_drives(script: &mut Script) {
    for (drive, up_to_end) in [
        (FEW_HEADS, [1, 255, 256, 512, 16_384, 32_512, 32_513, 32_767, 32_768]),
        (MANY_HEADS, [2, 254, 257, 511, 4_096, 16_385, 32_640, 32_766, 32_768]),
    ] {
        let past = up_to_end.map(|sectors| from_end(&drive, sectors, sectors + 1));
        let far = up_to_end.map(|sectors| from_end(&drive, sectors, 65_535));
        case_on(script, drive, MEMORY);
        run_chain(script, &[by_turns(&past), by_turns(&far)].concat());
    }
}

/// An address with so many whole sectors of memory after it, and with one byte
/// less and one byte more of them; those that are no address are left out.
fn about(memory_bytes: u64, sectors: u64) -> Vec<u64> {
    let Some(at) = memory_bytes.checked_sub(SECTOR_BYTES * sectors) else {
        return Vec::new();
    };
    [at.checked_sub(1), Some(at), Some(at + 1)].into_iter().flatten().collect()
}

/// Lengths of memory that are whole sectors, and others.
const LENGTHS: [u64; 8] = [LARGEST, 65_535, 65_025, 65_024, 65_023, 4_097, 4_096, 4_095];

/// Too many sectors by one or by far, from addresses on both sides of each whole
/// sector.
fn whole_sectors_of_memory(script: &mut Script) {
    for memory_bytes in LENGTHS {
        let mut blocks = Vec::new();
        for sectors in [0, 1, 2, 6, 126, 127, 128] {
            for address in about(memory_bytes, sectors) {
                let read = Block::new(READ).at(0, 1, 2).data(address);
                blocks.push(read.count(sectors + 1));
            }
        }
        for sectors in [2, 126] {
            let all_the_drive = Block::new(READ).at(0, 1, 2).count(288);
            let far = about(memory_bytes, sectors);
            blocks.extend(far.iter().map(|address| all_the_drive.data(*address)));
        }
        case_on(script, THREE_HUNDRED, memory_bytes);
        run_chain(script, &by_turns(&blocks));
    }
}

/// As many sectors as there are from the address on, or one too many by just one
/// byte: 00 is given with no number, and beside it 4BH with one sector less.
fn fitting_exactly(script: &mut Script) {
    for memory_bytes in LENGTHS {
        let mut blocks = Vec::new();
        for sectors in [1, 2, 126, 127, 128] {
            let read = Block::new(READ).at(0, 1, 2).count(sectors);
            blocks.extend(about(memory_bytes, sectors).iter().map(|address| read.data(*address)));
        }
        case_on(script, THREE_HUNDRED, memory_bytes);
        each_alone(script, &by_turns(&blocks));
    }
}

/// Memories of hardly more than the IOPB, and about one and two sectors.
fn small_memories(script: &mut Script) {
    for memory_bytes in [30, 31, 100, 511, 512, 513, 541, 1_023, 1_024, 1_025, 1_053] {
        let mut addresses = vec![0, 1, memory_bytes - 1, memory_bytes, memory_bytes + 1];
        addresses.extend(about(memory_bytes, 1));
        addresses.extend([65_536, ALL_32_BITS]);
        let read = |address: &u64| Block::new(READ).at(0, 1, 2).count(1).data(*address);
        let one: Vec<Block> = addresses.iter().map(read).collect();
        let three: Vec<Block> = one.iter().map(|block| block.count(3)).collect();
        case_on(script, BENCH, memory_bytes);
        each_alone(script, &[by_turns(&one), by_turns(&three)].concat());
    }
}

/// Addresses at the end of memory and past it, by little and by far. Some bits
/// of them alone are an address from which sectors would have fitted.
fn far_addresses(script: &mut Script) {
    for memory_bytes in [MEMORY, LARGEST] {
        let mut blocks = Vec::new();
        for address in [0, 1, 0x1FF, 0x200, 0x400, 0x1_0000, 0x1_0400, 0x8000_0000, 0xFFFE_0400] {
            blocks.push(Block::new(READ).count(1).data(memory_bytes + address));
        }
        for address in [0x7FFF_FFFF, 0xFFFF_0400, 0xFFFF_F000, 0xFFFF_FE00, ALL_32_BITS] {
            blocks.push(Block::new(READ).count(1).data(address));
            blocks.push(Block::new(READ).count(300).data(address));
        }
        both_ways(script, THREE_HUNDRED, memory_bytes, &blocks);
    }
}
