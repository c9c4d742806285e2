//! What a walk works out at the edges of 16 and of 32 bits: the number of the
//! first sector, also past the maxima; where the sectors end and the drive does;
//! where data and lists end and memory does.

use crate::drive::Drive;
use crate::makers::block::Block;
use crate::makers::edges::codes::run_chain;
use crate::makers::edges::last_head::short;
use crate::makers::edges::lists::{evenly, list_of};
use crate::makers::edges::{image, memory, READ, WRITE};
use crate::makers::script::Script;
use crate::makers::ALL_32_BITS;
use crate::range::Range;
use crate::trial::line::Line;

/// The largest image on one cylinder: 32,768 sectors, on 128 heads or on 256.
pub const FEW_HEADS: Drive = short(0, 127, 255, 255);
pub const MANY_HEADS: Drive = short(0, 255, 127, 127);

/// Data addresses and counts whose data ends at 65,536 and past it, where 128
/// sectors are no byte in 16 bits.
const ENDS_ABOUT_16: [(u64, u64); 16] = [
    (512, 127),
    (513, 127),
    (512, 128),
    (65_535, 128),
    (65_536, 128),
    (512, 129),
    (65_024, 129),
    (65_024, 1),
    (65_025, 1),
    (65_535, 1),
    (65_536, 1),
    (66_048, 1),
    (512, 256),
    (512, 257),
    (65_024, 257),
    (512, 1_024),
];

/// The same where the data would end at 0 or little more in 32 bits, and beside
/// them two that are right.
const ENDS_ABOUT_32: [(u64, u64); 16] = [
    (0xFFFF_FDFF, 1),
    (0xFFFF_FE00, 1),
    (0xFFFF_FE01, 1),
    (ALL_32_BITS, 1),
    (0xFFFE_FFFF, 128),
    (0xFFFF_0000, 128),
    (0xFFFF_0001, 128),
    (0xFFFF_0000, 129),
    (0xFFFE_FE00, 129),
    (ALL_32_BITS, 128),
    (0xFFF8_0000, 1_024),
    (ALL_32_BITS, 1_024),
    (0x7FFF_FE00, 1),
    (0x8000_0000, 1),
    (0x400, 1),
    (0x400, 126),
];

/// A cylinder, a head and a sector.
type At = (u64, u64, u64);

/// All the cases of this file.
pub fn all(script: &mut Script) {
    records(script);
    largest_records(script);
    end_of_drive(script);
    end_of_largest_drive(script);
    end_of_memory(script);
    long_counts(script);
    addresses_with_a_bit_more(script);
    next_with_a_bit_more(script);
    end_of_lists(script);
    end_of_ranges(script);
    far_sectors(script);
}

/// A new case on a drive with an image of its size.
pub fn case_on(script: &mut Script, drive: Drive, memory_bytes: u64) {
    script.case();
    script.say(Line::Drive(drive));
    script.say_all([memory(memory_bytes), image(drive.number_of_sectors())]);
}

/// Walks commands at these places, whose records show their numbers. The last
/// of them is tried too as commands that get a code before the cylinder.
fn walk_places(script: &mut Script, places: &[At]) {
    let block = |place: &At| Block::new(READ).at(place.0, place.1, place.2).count(1).data(0x800);
    let mut blocks: Vec<Block> = places.iter().map(block).collect();
    let last = blocks[blocks.len() - 1];
    blocks.extend([last.command(WRITE), last.command(0), last.command(9)]);
    blocks.extend([last.unit(1), last.count(0), last.count(65_535)]);
    run_chain(script, &blocks);
}

/// Numbers of sectors past the maxima on small drives, about 2 to the 16 and to
/// the 24. The product of the cylinder alone, that of the head alone, and both.
fn records(script: &mut Script) {
    for (drive, edges) in [
        // One sector in all, but 256 for each head past the only one.
        (short(0, 0, 255, 0), [(0, 255, 255), (1, 255, 255), (2, 255, 254)]),
        (short(0, 0, 0, 0), [(65_535, 0, 0), (65_535, 1, 0), (65_281, 255, 0)]),
        (short(1, 1, 7, 7), [(4_095, 1, 7), (4_096, 0, 0), (4_080, 31, 8)]),
        // Just below 2 to the 24, at it, and past it.
        (short(0, 0, 255, 255), [(65_535, 0, 255), (65_535, 1, 0), (65_280, 255, 0)]),
        (short(0, 1, 255, 0), [(65_280, 255, 255), (65_281, 0, 0), (65_281, 255, 255)]),
        (short(3, 2, 30, 6), [(949, 46, 0), (65_535, 0, 0), (963, 0, 1)]),
    ] {
        case_on(script, drive, 4_096);
        let mut places = edges.to_vec();
        places.extend([(1, 0, 0), (0, 1, 0), (0, 0, 255), (0, 255, 0), (256, 0, 0)]);
        places.extend([(32_767, 255, 255), (32_768, 0, 0), (65_535, 0, 255), (65_535, 255, 255)]);
        walk_places(script, &places);
    }
}

/// The same on drives of the largest size. Only here the number goes past 2 to
/// the 31, and then by its head: 65,535 x 32,768 alone does not.
fn largest_records(script: &mut Script) {
    let places = [(2, 0, 0), (1, 127, 255), (1, 128, 0), (65_534, 255, 255), (65_535, 0, 0)];
    for (drive, edges) in [
        (FEW_HEADS, [(65_535, 127, 255), (65_535, 128, 0), (0, 255, 255), (65_535, 255, 255)]),
        (MANY_HEADS, [(65_535, 255, 127), (65_535, 255, 128), (0, 255, 255), (65_535, 255, 255)]),
    ] {
        case_on(script, drive, 4_096);
        walk_places(script, &[places.as_slice(), edges.as_slice()].concat());
    }
}

/// First sector + count on both sides of the drive's end, and where 16 bits of
/// the sum would be on the drive.
fn end_of_drive(script: &mut Script) {
    for protected in [false, true] {
        case_on(script, Drive { protected, ..short(1, 1, 7, 7) }, 32_768);
        let from = |sector: u64, count: u64| {
            Block::new(WRITE).at(sector / 16, sector / 8 % 2, sector % 8).count(count).data(0x2000)
        };
        let mut blocks = vec![from(31, 1), from(31, 2), from(1, 31), from(1, 32), from(0, 33)];
        blocks.extend([65_503, 65_504, 65_505, 65_506, 65_534, 65_535].map(|n| from(31, n)));
        blocks.extend([65_534, 65_535].map(|n| from(1, n)));
        blocks.extend([from(0, 65_535), from(2, 65_534), from(16, 65_520), from(17, 65_535)]);
        run_chain(script, &blocks);
    }
}

/// The same on the largest drive that an image can have. Where the sectors are
/// on the drive, there are too many for memory.
fn end_of_largest_drive(script: &mut Script) {
    case_on(script, FEW_HEADS, 4_096);
    let from = |sector: u64, count: u64| {
        Block::new(READ).at(0, sector / 256, sector % 256).count(count).data(0x800)
    };
    let mut blocks = vec![from(32_767, 1), from(32_767, 2), from(1, 32_767), from(1, 32_768)];
    blocks.extend([32_768, 32_769, 32_770, 65_535].map(|count| from(32_767, count)));
    blocks.extend([from(0, 32_768), from(0, 32_769), from(1, 65_535), from(2, 65_534)]);
    blocks.extend([from(16_384, 16_384), from(16_384, 16_385), from(16_384, 49_152)]);
    run_chain(script, &blocks);
}

/// Data that ends at these edges, as reads and as writes.
fn end_of_memory(script: &mut Script) {
    for ends in [ENDS_ABOUT_16, ENDS_ABOUT_32] {
        for command in [READ, WRITE] {
            case_on(script, short(0, 3, 255, 255), 65_536);
            let block = |(data, count)| Block::new(command).at(0, 0, 0).count(count).data(data);
            run_chain(script, &ends.map(block));
        }
    }
}

/// Counts whose bytes are 0, or those of one sector, in 17 to 24 bits.
fn long_counts(script: &mut Script) {
    case_on(script, FEW_HEADS, 4_096);
    let read = |count: u64| Block::new(READ).count(count).data(0x800);
    let mut blocks = vec![read(1)];
    for bits in 16..24 {
        let lost = (1 << bits) / 512;
        blocks.extend([read(lost), read(lost + 1)]);
    }
    blocks.extend([read(32_767), read(32_768), read(32_769)]);
    run_chain(script, &blocks);
}

/// The numbers that have one bit, where memory has 4,096 bytes.
fn bits_past_memory() -> Vec<u64> {
    (12..32).map(|bit| 1 << bit).collect()
}

/// Data, a list and a range at a right address, and then each with one bit more:
/// if it were lost, the address would be right again.
fn addresses_with_a_bit_more(script: &mut Script) {
    let one = list_of(&[(0x800, 512)]);
    for command in [READ, WRITE] {
        let block = Block::new(command).at(0, 1, 0).count(1);
        case_on(script, short(1, 1, 7, 7), 4_096);
        let mut plain = vec![block.data(0x800)];
        plain.extend(bits_past_memory().iter().map(|bit| block.data(0x800 + bit)));
        run_chain(script, &plain);

        case_on(script, short(1, 1, 7, 7), 4_096);
        script.link_list(0x400, &one);
        let mut listed = vec![block.list(0x400, 1)];
        listed.extend(bits_past_memory().iter().map(|bit| block.list(0x400 + bit, 1)));
        run_chain(script, &listed);

        case_on(script, short(1, 1, 7, 7), 4_096);
        let mut ranged = Vec::new();
        for (k, bit) in [0].into_iter().chain(bits_past_memory()).enumerate() {
            let list = list_of(&[(0xA00, 200), (0x800 + bit as u32, 312)]);
            let at = 0x400 + 16 * k as u64;
            script.link_list(at, &list);
            ranged.push(block.list(at, 2));
        }
        run_chain(script, &ranged);
    }
}

/// The first and the next address with one bit more: not in memory.
fn next_with_a_bit_more(script: &mut Script) {
    script.bench_case();
    script.block(0x40, Block::new(0));
    script.block(0, Block::new(0).next(0x40));
    script.say_all([Line::Walk(0), Line::Walk(0x40)]);
    for bit in bits_past_memory() {
        let address = 0x40 + bit;
        script.say_all([Line::Walk(address), Line::View(address), Line::Fields(address)]);
        script.block(0, Block::new(0).next(address));
        script.say(Line::Walk(0));
    }
}

/// A memory of 65,536 bytes with a list in it, and commands that say where it is
/// and how many elements it has.
fn with_list(script: &mut Script, at: u64, list: &[Range], said: &[(u64, u64)]) {
    case_on(script, short(1, 1, 7, 7), 65_536);
    script.link_list(at, list);
    let block = Block::new(READ).at(0, 1, 0).count(1);
    let blocks: Vec<Block> = said.iter().map(|(at, elements)| block.list(*at, *elements)).collect();
    run_chain(script, &blocks);
}

/// Lists that end at 65,536 and past it, and lists whose end would be 0 or more
/// in 32 bits.
fn end_of_lists(script: &mut Script) {
    let many = evenly(32, 0x800, 34, 16);
    let near_32 = [(0xFFFF_FF00, 32), (0xFFFF_FEFF, 32), (0xFFFF_FF01, 32), (ALL_32_BITS, 32)];
    let past = [(0xFF01, 32), (0xFF08, 32), (0xFFF8, 32), (65_536, 32), (65_535, 1)];
    let said: Vec<(u64, u64)> = [(0xFF00, 32)].into_iter().chain(past).chain(near_32).collect();
    with_list(script, 0xFF00, &many, &said);
    let near_32 = [(0xFFFF_FFF8, 1), (0xFFFF_FFF7, 1), (0xFFFF_FFF9, 1), (0xFFFF_FFF0, 2)];
    let past = [(0xFFF9, 1), (0xFFF8, 2), (65_536, 1), (0x1_FFF8, 1)];
    let said: Vec<(u64, u64)> = [(0xFFF8, 1)].into_iter().chain(past).chain(near_32).collect();
    with_list(script, 0xFFF8, &list_of(&[(0x800, 512)]), &said);
}

/// Two ranges of 65,536 bytes together, the longer of which ends at 65,536, past
/// it, or at 0 or more in 32 bits.
fn end_of_ranges(script: &mut Script) {
    for address in [0, 2, 4, 0x8000, 0xFFFF_0000, 0xFFFF_0002, 0xFFFF_0004, 0xFFFF_FFFE] {
        for command in [READ, WRITE] {
            case_on(script, short(0, 0, 255, 255), 65_536);
            script.link_list(0x400, &list_of(&[(0x600, 2), (address, 65_534)]));
            script.block(0, Block::new(command).count(128).list(0x400, 2));
            script.say_all([Line::Walk(0), Line::Steps, Line::Pick(0), Line::Written(u64::MAX)]);
            script.say_all([Line::look_0(0), Line::look_0(127), Line::Fields(0)]);
        }
    }
}

/// Sectors far on in the image, each with a mark of its own, that are read; and
/// the ones after them, which are written. Some bits of the offset alone would
/// name a sector near the start.
fn far_sectors(script: &mut Script) {
    case_on(script, FEW_HEADS, 16_384);
    let sectors: Vec<u64> = (7..15).map(|bit| 1 << bit).collect();
    let at = |sector: u64| Block::new(READ).at(0, sector / 256, sector % 256).count(1);
    let mut blocks = Vec::new();
    for (k, sector) in sectors.iter().enumerate() {
        let (mark, data) = (vec![0xB0 + k as u8, 0x5C], 0x1000 + 512 * k as u64);
        script.say(Line::Disk { offset: 512 * sector + 5, bytes: mark.clone() });
        script.say(Line::Put { address: data + 0x1007, bytes: mark });
        blocks.push(at(*sector).data(data));
        blocks.push(at(sector + 1).command(WRITE).data(data + 0x1000));
    }
    run_chain(script, &blocks);
    let each = sectors.iter().flat_map(|sector| [*sector, sector + 1]);
    script.say_all([0, 1].into_iter().chain(each).map(Line::look_0));
}
