//! Random link lists: how a command's bytes are cut into ranges, where these
//! lie, where the list itself lies, and what is wrong with it.

use crate::board::SECTOR_BYTES;
use crate::link_list::{ELEMENT_BYTES, MOST_ELEMENTS};
use crate::makers::lay::{apart, data_address, Lay, Transfer};
use crate::makers::rng::Rng;
use crate::makers::ALL_32_BITS;
use crate::range::Range;

/// The longest that one element can be.
pub const LONGEST: u64 = 0xFFFF;

/// The ranges of a list for so many bytes, mostly all in memory.
pub fn random_ranges(rng: &mut Rng, lay: &Lay, bytes: u64, earlier: &[Transfer]) -> Vec<Range> {
    let parts = number_of_parts(rng, lay.addresses.len() as u64);
    let mut ranges = Vec::new();
    for length in cut(rng, bytes, parts) {
        let address = range_address(rng, lay, length, &ranges, earlier);
        ranges.push(Range { address: address as u32, length: length as u32 });
    }
    ranges
}

/// Mostly few; the longer lists are for the shorter chains.
fn number_of_parts(rng: &mut Rng, commands: u64) -> u64 {
    match rng.below(100) {
        0..=17 => 1,
        18..=44 => 2,
        45..=84 => rng.between(3, 6),
        _ if commands > 6 => rng.between(1, 8),
        85..=94 => rng.between(7, 31),
        _ => MOST_ELEMENTS,
    }
}

/// Cuts so many bytes into parts, of which some may be empty. Where one of them
/// would be too long for an element, there are 32 about alike.
pub fn cut(rng: &mut Rng, bytes: u64, parts: u64) -> Vec<u64> {
    let mut cuts: Vec<u64> = (1..parts).map(|_| one_cut(rng, bytes)).collect();
    if rng.once_in(10) {
        // Parts of one byte each, one after the other.
        let first = one_cut(rng, bytes);
        cuts = (1..parts).map(|k| (first + k).min(bytes)).collect();
    }
    cuts.push(bytes);
    cuts.sort();
    let before = [0].into_iter().chain(cuts.clone());
    let lengths: Vec<u64> = cuts.iter().zip(before).map(|(end, start)| end - start).collect();
    if lengths.iter().any(|length| *length > LONGEST) {
        return alike(bytes);
    }
    lengths
}

fn alike(bytes: u64) -> Vec<u64> {
    let mut lengths = vec![bytes / MOST_ELEMENTS; MOST_ELEMENTS as usize];
    lengths[0] += bytes % MOST_ELEMENTS;
    lengths
}

/// Anywhere, often at an even place or about the end of a sector.
fn one_cut(rng: &mut Rng, bytes: u64) -> u64 {
    let sector_end = SECTOR_BYTES * rng.between(0, bytes / SECTOR_BYTES);
    match rng.below(10) {
        0 => sector_end,
        1 => (sector_end + 1).min(bytes),
        2 => sector_end.saturating_sub(1),
        3..=6 => 2 * rng.between(0, bytes / 2),
        _ => rng.between(0, bytes),
    }
}

/// An even address: after the range before, over an own range, or where the
/// data of any command might be laid.
fn range_address(
    rng: &mut Rng,
    lay: &Lay,
    length: u64,
    own: &[Range],
    earlier: &[Transfer],
) -> u64 {
    let last = lay.memory.saturating_sub(length);
    let address = match (rng.below(20), own.last()) {
        (0 | 1, Some(range)) => range.bytes().end,
        (2 | 3, Some(_)) => {
            let range = rng.one_of(own).bytes();
            rng.between(range.start, range.end)
        }
        (4, _) => last,
        _ if lay.near == 0 => apart(rng, lay, length, &all_ranges(own, earlier)),
        _ => data_address(rng, lay, length, earlier),
    };
    address.min(last) / 2 * 2
}

fn all_ranges(own: &[Range], earlier: &[Transfer]) -> Vec<Range> {
    let others = earlier.iter().flat_map(|transfer| transfer.ranges.clone());
    own.iter().copied().chain(others).collect()
}

/// Where the list lies, odd or even: apart from IOPBs and from these lists, so
/// that it stays what it is until the walk; or at the end of memory, or over
/// its own data.
pub fn list_address(rng: &mut Rng, lay: &Lay, ranges: &[Range], lists: &[Range]) -> u64 {
    let bytes = ELEMENT_BYTES * ranges.len() as u64;
    let last = lay.memory.saturating_sub(bytes);
    match rng.below(16) {
        0 => last,
        1 | 2 => {
            let range = rng.one_of(ranges).bytes();
            rng.between(range.start, range.end).min(last)
        }
        _ => apart(rng, lay, bytes, lists),
    }
}

/// Spoils a list, mostly just past one of its lines.
pub fn list_fault(rng: &mut Rng, memory: u64, transfer: &mut Transfer) {
    let bytes = ELEMENT_BYTES * transfer.ranges.len() as u64;
    let past = (memory + 1).saturating_sub(bytes);
    let wraps = ALL_32_BITS + 1 - bytes;
    let at = rng.below(transfer.ranges.len() as u64) as usize;
    if rng.once_in(10) && transfer.ranges.len() > 1 {
        add_65536(&mut transfer.ranges);
        return;
    }
    let range = &mut transfer.ranges[at];
    match rng.below(9) {
        0 => range.length = range.length.saturating_sub(1),
        1 | 2 => {
            let more = rng.one_of(&[1, 2, 512, 0xFFFF]);
            range.length = (range.length + more).min(LONGEST as u32);
        }
        3 | 4 => range.address |= 1,
        5 | 6 => range.address = address_past(rng, memory, u64::from(range.length)) as u32,
        _ => transfer.list = Some(rng.one_of(&[past, past, past + 1, memory, wraps])),
    }
}

/// Makes the lengths too large by as much as 16 bits would lose.
fn add_65536(ranges: &mut [Range]) {
    for range in &mut ranges[..2] {
        range.length = (range.length + 0x8000).min(LONGEST as u32);
    }
}

/// An address from which so many bytes end past memory, by little or by far.
/// From the last but one on they would end at 0 again in 32 bits.
pub fn address_past(rng: &mut Rng, memory: u64, length: u64) -> u64 {
    let past = (memory + 1).saturating_sub(length);
    let even = (past + 1) / 2 * 2;
    let wraps = (ALL_32_BITS + 1 - length).min(ALL_32_BITS);
    rng.one_of(&[past, even, even, even + 2, wraps, ALL_32_BITS - 1])
}
