//! What the cases with link lists have in common: a ground where every piece
//! of data can be told from every other, lists, and the calls that show all.

use crate::board::SECTOR_BYTES;
use crate::makers::block::Block;
use crate::makers::edges::{image, memory, READ, WRITE};
use crate::makers::random_lists::LONGEST;
use crate::makers::script::Script;
use crate::range::Range;
use crate::trial::line::Line;
use crate::trial::list_walks::SUM_BITS;

/// Where the lists of these cases begin, unless a case says otherwise.
pub const LIST: u64 = 0x400;
/// The memory of these cases, unless a case says otherwise.
pub const MEMORY: u64 = 0x1000;
/// The first sector that the commands of these cases name.
pub const SECTOR: u64 = 8;
/// The bytes from one mark to the next.
const MARK_STEP: u64 = 128;

/// A list of these ranges, each an address and a length.
pub fn list_of(ranges: &[(u32, u32)]) -> Vec<Range> {
    ranges.iter().map(|(address, length)| Range { address: *address, length: *length }).collect()
}

/// So many ranges of one length, the first at this address, so far apart.
pub fn evenly(number: u32, first: u32, apart: u32, length: u32) -> Vec<Range> {
    (0..number).map(|k| Range { address: first + apart * k, length }).collect()
}

/// As few ranges as have so many bytes, all of them in the largest memory.
fn ranges_of(bytes: u64) -> Vec<Range> {
    let mut list = evenly((bytes / LONGEST) as u32, 0, 0, LONGEST as u32);
    list.push(Range { address: 0x600, length: (bytes % LONGEST) as u32 });
    list
}

/// For every number of bits that a sum might be kept in: lengths that are too
/// many for this count by just what these bits lose, a count for which the same
/// lengths are right, and with it lengths that are too few by as much.
pub fn off_by_lost_bits(count: u64) -> Vec<(u64, Vec<Range>)> {
    let mut commands = Vec::new();
    for bits in SUM_BITS {
        let larger = count + (1 << bits) / SECTOR_BYTES;
        let (few, many) = (ranges_of(SECTOR_BYTES * count), ranges_of(SECTOR_BYTES * larger));
        commands.extend([(count, many.clone()), (larger, many), (larger, few)]);
    }
    commands
}

/// A mark that is not like those near it.
fn mark(k: u64) -> Vec<u8> {
    vec![(k * k * 29 + 17) as u8, (k * 101 + 7) as u8]
}

/// Marks in memory from 600H on, so that no two pieces of it are alike.
fn mark_memory(script: &mut Script) {
    let end = script.state.board.memory_bytes().min(MEMORY) - 1;
    for (k, address) in (0x600..end).step_by(MARK_STEP as usize).enumerate() {
        script.say(Line::Put { address, bytes: mark(k as u64) });
    }
}

/// Marks in the first four of the sectors that the commands name.
fn mark_sectors(script: &mut Script) {
    let first = 512 * SECTOR;
    for (k, offset) in (first..first + 4 * 512).step_by(MARK_STEP as usize).enumerate() {
        script.say(Line::Disk { offset: offset + 3, bytes: mark(k as u64 + 50) });
    }
}

/// A new case on the bench's drive with a memory of this length, all marked.
pub fn case_with_memory(script: &mut Script, length: u64, protected: bool) {
    script.case();
    script.drive(1, 1, 7, protected);
    script.say_all([memory(length), image(32)]);
    mark_memory(script);
    mark_sectors(script);
}

/// A new case with the largest memory, on a drive that has room for so many
/// sectors.
pub fn large_case(script: &mut Script, sectors: u64) {
    let max_cylinder = (sectors - 1) / 64;
    script.case();
    script.drive(max_cylinder as u16, 3, 15, false);
    script.say_all([memory(65_536), image(64 * (max_cylinder + 1))]);
}

/// A new case with the usual memory.
pub fn list_case(script: &mut Script) {
    case_with_memory(script, MEMORY, false);
}

/// A transfer from the usual sector on, with a list at the usual place.
pub fn listed(command: u8, count: u64, elements: usize) -> Block {
    Block::new(command).at(0, 1, 0).count(count).list(LIST, elements as u64)
}

/// Walks one command at 0, takes a step, then all steps, and shows its status
/// and its sectors.
pub fn walk_and_show(script: &mut Script, block: Block) {
    script.block(0, block);
    script.say_all([Line::Walk(0), Line::Steps, Line::Pick(0), Line::Fields(0)]);
    script.say_all([Line::Written(u64::MAX), Line::Fields(0)]);
    script.say_all((SECTOR..SECTOR + 3).map(Line::look_0));
}

/// One command with this list, in a case of its own.
pub fn one_way(script: &mut Script, command: u8, count: u64, list: &[Range]) {
    list_case(script);
    script.link_list(LIST, list);
    walk_and_show(script, listed(command, count, list.len()));
}

/// One command with this list, as a read and as a write.
pub fn both_ways(script: &mut Script, count: u64, list: &[Range]) {
    one_way(script, READ, count, list);
    one_way(script, WRITE, count, list);
}
