//! Random chains: where the IOPBs and their link lists lie, what each command
//! asks, how they are linked.

use crate::board::SECTOR_BYTES;
use crate::drive::Drive;
use crate::iopb::IOPB_BYTES;
use crate::link_list::ELEMENT_BYTES;
use crate::makers::block::Block;
use crate::makers::lay::{data_address, first_sector, Lay, Transfer};
use crate::makers::random_lists::{list_address, list_fault, random_ranges};
use crate::makers::rng::Rng;
use crate::makers::script::element_bytes;
use crate::place::{counted_to, Place};
use crate::range::Range;

/// A chain ready to be put in memory: the bytes of its lists first, then its
/// IOPBs.
#[derive(Clone, Debug, Default)]
pub struct Chain {
    pub start: u64,
    pub lists: Vec<(u64, Vec<u8>)>,
    pub blocks: Vec<(u64, Block)>,
}

/// A random chain for so many bytes of memory and one drive. In a memory too
/// small for an IOPB there is none, and the start is anywhere.
pub fn random_chain(rng: &mut Rng, memory: u64, drive: &Drive) -> Chain {
    let number = chain_length(rng);
    let addresses = places(rng, memory, number);
    if addresses.is_empty() {
        return Chain { start: rng.below(8), ..Chain::default() };
    }
    // About half of the chains have commands with lists.
    let lists = if rng.percent(52) { rng.one_of(&[25, 50, 90]) } else { 0 };
    let (mut blocks, transfers) = commands(rng, memory, drive, &addresses, lists);
    link(rng, memory, &addresses, &mut blocks);
    Chain {
        start: addresses[0],
        lists: transfers.iter().filter_map(|transfer| list_bytes(memory, transfer)).collect(),
        blocks: addresses.into_iter().zip(blocks).collect(),
    }
}

/// The bytes of a transfer's list that are in memory, and where they begin.
fn list_bytes(memory: u64, transfer: &Transfer) -> Option<(u64, Vec<u8>)> {
    let at = transfer.list?;
    let inside = memory.saturating_sub(at) as usize;
    let bytes: Vec<u8> = transfer.ranges.iter().flat_map(element_bytes).take(inside).collect();
    if bytes.is_empty() {
        None
    } else {
        Some((at, bytes))
    }
}

/// Mostly short, but every length from 1 to 32 comes up.
fn chain_length(rng: &mut Rng) -> u64 {
    match rng.below(100) {
        0..=58 => rng.between(1, 5),
        59..=82 => rng.between(1, 11),
        83..=96 => rng.between(8, 32),
        _ => 32,
    }
}

/// Even addresses that share no byte, in any order and spacing.
fn places(rng: &mut Rng, memory: u64, wanted: u64) -> Vec<u64> {
    let number = wanted.min(memory / IOPB_BYTES);
    if number == 0 {
        return Vec::new();
    }
    let spacing = match rng.below(4) {
        0 => IOPB_BYTES,
        1 => 32,
        2 => 2 * rng.between(15, 40),
        _ => 2 * rng.between(15, 150),
    };
    let spacing = spacing.min(memory / number / 2 * 2).max(IOPB_BYTES);
    let slack = memory - spacing * (number - 1) - IOPB_BYTES;
    let base = match rng.below(4) {
        0 => 0,
        1 => slack,
        _ => rng.between(0, slack),
    };
    let mut addresses: Vec<u64> = (0..number).map(|k| base / 2 * 2 + spacing * k).collect();
    match rng.below(5) {
        0 => addresses.reverse(),
        1 | 2 => rng.shuffle(&mut addresses),
        _ => {}
    }
    addresses
}

/// The commands at these addresses, not yet linked, and what they ask; `lists`
/// in a hundred have a link list.
pub fn commands(
    rng: &mut Rng,
    memory: u64,
    drive: &Drive,
    addresses: &[u64],
    lists: u64,
) -> (Vec<Block>, Vec<Transfer>) {
    let mut earlier: Vec<Transfer> = Vec::new();
    let mut blocks = Vec::new();
    // Some chains are nearly all spoiled, most hardly at all; some have their
    // commands well apart, some all in a heap.
    let faults = rng.one_of(&[0, 5, 15, 15, 60]);
    let lay = Lay {
        memory,
        sectors: drive.number_of_sectors(),
        drive,
        addresses,
        near: rng.one_of(&[0, 25, 60, 90]),
        lists,
    };
    for _ in addresses {
        let mut transfer = transfer(rng, &lay, &earlier);
        if transfer.list.is_some() && rng.percent(faults) {
            list_fault(rng, lay.memory, &mut transfer);
        }
        let command = rng.one_of(&[0, 1, 1, 1, 1, 2, 2, 2, 2]);
        let mut block = block_for(rng, drive, command, &transfer);
        if rng.percent(faults) {
            for _ in 0..rng.between(1, 3) {
                block = fault(rng, &lay, block, &transfer);
            }
        }
        blocks.push(block);
        earlier.push(transfer);
    }
    (blocks, earlier)
}

fn block_for(rng: &mut Rng, drive: &Drive, command: u8, transfer: &Transfer) -> Block {
    let place = counted_to(drive, transfer.sector);
    let Place { cylinder, head, sector } = place.expect("every transfer begins on the drive");
    // With CHEN clear the next address is not looked at: it may be anything.
    let next = rng.next() % (1 << 32);
    let block = Block::random(rng, command)
        .count(transfer.count)
        .at(cylinder, head, sector)
        .next_address(next);
    match transfer.list {
        // A No Operation has no list: SGM would give it 14H.
        Some(at) if command != 0 || rng.once_in(8) => block.list(at, transfer.ranges.len() as u64),
        Some(at) => block.data(at),
        None => block.data(u64::from(transfer.ranges[0].address)),
    }
}

fn transfer(rng: &mut Rng, lay: &Lay, earlier: &[Transfer]) -> Transfer {
    let fit = lay.sectors.min(lay.memory / SECTOR_BYTES).max(1);
    let wanted = match rng.below(100) {
        0..=44 => 1,
        45..=76 => rng.between(1, 3),
        77..=96 => rng.between(1, 8),
        _ => rng.between(1, fit),
    };
    let listed = rng.percent(lay.lists);
    // Ranges may overlap, so a list can move more than memory holds.
    let most = if listed && rng.once_in(4) { lay.sectors } else { fit };
    let count = wanted.min(most);
    let sector = first_sector(rng, lay, count, earlier);
    let bytes = count * SECTOR_BYTES;
    if listed {
        let ranges = random_ranges(rng, lay, bytes, earlier);
        let list = list_address(rng, lay, &ranges, &lists_of(earlier));
        return Transfer { sector, count, ranges, list: Some(list) };
    }
    let address = data_address(rng, lay, bytes, earlier) as u32;
    let ranges = vec![Range { address, length: bytes as u32 }];
    Transfer { sector, count, ranges, list: None }
}

/// Where the lists of these transfers lie.
fn lists_of(transfers: &[Transfer]) -> Vec<Range> {
    let lists = transfers.iter().filter_map(|transfer| {
        let length = ELEMENT_BYTES as usize * transfer.ranges.len();
        transfer.list.map(|at| Range { address: at as u32, length: length as u32 })
    });
    lists.collect()
}

/// Spoils one field, mostly just past its line.
fn fault(rng: &mut Rng, lay: &Lay, block: Block, transfer: &Transfer) -> Block {
    let drive = lay.drive;
    let (cylinder, head, sector) =
        (number_in(&block, 0x0A, 2), number_in(&block, 0x0C, 1), number_in(&block, 0x0D, 1));
    let past_cylinder = u64::from(drive.max_cylinder) + 1;
    let past_head = u64::from(drive.max_head) + 1;
    // Past the maximum of the command's own head.
    let past_sector = drive.sectors_of(head);
    let kinds = if drive.last_head_shorter() { 14 } else { 12 };
    match rng.below(kinds) {
        0 => block.command(rng.between(3, 15) as u8),
        1 => block.sgm(),
        2 => block.subfunction(rng.between(1, 255) as u8),
        3 => block.unit(rng.between(1, 7) as u8),
        4 => block.count(0),
        5 => {
            block.at(rng.one_of(&[past_cylinder, past_cylinder, 0xFFFF]).min(0xFFFF), head, sector)
        }
        6 => block.at(cylinder, rng.one_of(&[past_head, past_head, 0xFF]).min(0xFF), sector),
        7 => block.at(cylinder, head, rng.one_of(&[past_sector, past_sector, 0xFF]).min(0xFF)),
        8 => block.count(count_past_drive(rng, drive.number_of_sectors(), transfer.sector)),
        9 => block.at(past_cylinder.min(0xFFFF), past_head.min(0xFF), past_sector.min(0xFF)),
        12 | 13 => {
            let (head, sector) = past_one_maximum(rng, drive);
            block.at(cylinder, head, sector)
        }
        _ => block.data(data_past_memory(rng, lay.memory, transfer.count)),
    }
}

/// A head and a sector past one of the two maxima, where the last head is
/// shorter: on the last head between the two, or on another past the larger.
fn past_one_maximum(rng: &mut Rng, drive: &Drive) -> (u64, u64) {
    let last_head = u64::from(drive.max_head);
    let others = u64::from(drive.max_sector);
    let past_last = drive.sectors_of(last_head);
    if rng.percent(60) {
        let between = rng.between(past_last, others);
        return (last_head, rng.one_of(&[past_last, others, between]));
    }
    (rng.below(last_head.max(1)), (others + 1).min(0xFF))
}

/// The number that stands in so many bytes of a block.
pub fn number_in(block: &Block, from: usize, bytes: usize) -> u64 {
    block.bytes[from..from + bytes].iter().fold(0, |sum, byte| sum * 256 + u64::from(*byte))
}

fn count_past_drive(rng: &mut Rng, sectors: u64, first: u64) -> u64 {
    let past = sectors - first.min(sectors) + 1;
    rng.one_of(&[past, past, past + 1, 0x8000, 0xFFFF]).min(0xFFFF)
}

/// Addresses whose data ends past memory; the last two would end at or past 0
/// again if the sum were kept in 32 bits.
fn data_past_memory(rng: &mut Rng, memory: u64, count: u64) -> u64 {
    let past = (memory + 1).saturating_sub(count * SECTOR_BYTES);
    let wraps = (1 << 32) - count * SECTOR_BYTES;
    rng.one_of(&[past, past, memory, wraps, 0xFFFF_FFFF])
}

/// Links the commands one after the other, and ends the chain somehow.
fn link(rng: &mut Rng, memory: u64, addresses: &[u64], blocks: &mut [Block]) {
    let last = blocks.len() - 1;
    for k in 0..last {
        blocks[k] = blocks[k].next(addresses[k + 1]);
    }
    if last > 0 && rng.percent(4) {
        let cut = rng.below(last as u64) as usize;
        blocks[cut] = blocks[cut].next(addresses[cut + 1] + 1);
    }
    let sound = if blocks.len() == 32 { 50 } else { 76 };
    if !rng.percent(sound) {
        blocks[last] = blocks[last].next(odd_end(rng, memory, addresses));
    }
}

/// Where a chain goes that does not simply end: in a loop, over an earlier
/// IOPB, out of memory, to an odd address, or anywhere.
fn odd_end(rng: &mut Rng, memory: u64, addresses: &[u64]) -> u64 {
    let earlier = rng.one_of(addresses);
    let last_place = memory.saturating_sub(IOPB_BYTES) / 2 * 2;
    match rng.below(10) {
        0 | 1 => earlier,
        2 => earlier + 2 * rng.between(1, 14),
        3 => earlier.saturating_sub(2 * rng.between(1, 14)),
        4 => last_place + 2,
        5 => rng.one_of(&[memory / 2 * 2, 0x1_0000, 0xFFFF_FFFE, 0xFFFF_FFE2]),
        6 | 7 => earlier + 2 * rng.below(40) + 1,
        8 => last_place,
        _ => rng.between(0, last_place) / 2 * 2,
    }
}
