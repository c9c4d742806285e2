//! The rows of the count for link lists as steps are taken or refused: how many
//! ranges a sector lies in, and which ranges stand in each other's way.

use crate::board::{Board, SECTOR_BYTES};
use crate::conflict::{conflict, data_bytes, meet, status_bytes, touched};
use crate::link_list::read_list;
use crate::range::{bytes_end_to_end, Range};
use crate::record::Record;
use crate::trial::list_walks::{own_bytes, right_in_bits, SUM_BITS};
use std::collections::{BTreeMap, BTreeSet};

const IN_ONE: &str = "step in one range of several";
const OVER_TWO: &str = "step over two ranges";
const OVER_THREE: &str = "step over three ranges";
const OVER_MORE: &str = "step over more ranges";
const READ_TWICE: &str = "read step that fills a byte twice";
const ORDER: &str = "read step whose order of filling matters";
const WRITE_TWICE: &str = "write step that takes a byte twice";
const CHANGED: &str = "step by a list that has changed in memory";
const ODD_ADDRESS: &str = "step with an odd address of a range";
const NO_SGM: &str = "step by a list, byte 0 without SGM";
const NO_LIST: &str = "step without a list, byte 0 with SGM";
const NOT_FIRST: &str = "conflict by a range that is not the first, alone";
const MIDDLE: &str = "conflict by a middle range, alone";
const LAST: &str = "conflict by the last range, alone";
const PAST_HULL: &str = "step past an unfinished command, hulls of lists meet";
const PAST_EMPTY: &str = "step past an unfinished command, a range of length 0 in its data";
const PAST_LIST: &str = "step past an unfinished command, data over a list";
const BITS_NINE: [&str; SUM_BITS.len()] = [
    "refused 9: lengths right in 16 bits",
    "refused 9: lengths right in 17 bits",
    "refused 9: lengths right in 18 bits",
    "refused 9: lengths right in 19 bits",
    "refused 9: lengths right in 20 bits",
];

/// The names of all rows of this file, in the order in which they are printed.
pub fn names() -> Vec<&'static str> {
    let mut names = vec![IN_ONE, OVER_TWO, OVER_THREE, OVER_MORE, READ_TWICE, ORDER, WRITE_TWICE];
    names.extend([CHANGED, ODD_ADDRESS, NO_SGM, NO_LIST]);
    names.extend([NOT_FIRST, MIDDLE, LAST, PAST_HULL, PAST_EMPTY, PAST_LIST]);
    names.extend(BITS_NINE);
    names
}

/// The rows of a step that is about to be taken.
pub fn step_rows(board: &Board, record: &Record) -> Vec<&'static str> {
    if !record.is_transfer() {
        return Vec::new();
    }
    let sgm = record.byte0 & 0x10 != 0;
    if !record.has_list() {
        return if sgm { vec![NO_LIST] } else { Vec::new() };
    }
    let ranges = record.data_ranges();
    let mut rows = straddle_rows(record, &ranges);
    rows.extend(twice_rows(board, record, &ranges));
    if ranges.iter().any(|range| range.address % 2 == 1) {
        rows.push(ODD_ADDRESS);
    }
    if !sgm {
        rows.push(NO_SGM);
    }
    let now = read_list(board, u64::from(record.data), u64::from(record.ranges));
    if now.is_some_and(|now| now != ranges) {
        rows.push(CHANGED);
    }
    rows
}

/// The addresses of the sector that the next step moves.
fn next_bytes(record: &Record, ranges: &[Range]) -> Vec<u64> {
    bytes_end_to_end(ranges, SECTOR_BYTES * u64::from(record.taken), SECTOR_BYTES)
}

/// In how many ranges of a list the next sector lies.
fn straddle_rows(record: &Record, ranges: &[Range]) -> Vec<&'static str> {
    let first = SECTOR_BYTES * u64::from(record.taken);
    let mut before = 0;
    let mut pieces = 0;
    for range in ranges {
        let end = before + u64::from(range.length);
        if before.max(first) < end.min(first + SECTOR_BYTES) {
            pieces += 1;
        }
        before = end;
    }
    match pieces {
        1 if ranges.len() == 1 => Vec::new(),
        1 => vec![IN_ONE],
        2 => vec![OVER_TWO],
        3 => vec![OVER_THREE],
        _ => vec![OVER_MORE],
    }
}

/// A sector that has some byte of memory twice. The order matters to a read if
/// the sector's bytes for that place differ.
fn twice_rows(board: &Board, record: &Record, ranges: &[Range]) -> Vec<&'static str> {
    let bytes = next_bytes(record, ranges);
    let mut distinct = bytes.clone();
    distinct.sort();
    distinct.dedup();
    if distinct.len() == bytes.len() {
        return Vec::new();
    }
    let from = SECTOR_BYTES * (u64::from(record.sector) + u64::from(record.taken));
    let sector =
        &board.units[usize::from(record.unit)].image[from as usize..][..SECTOR_BYTES as usize];
    let mut filled: BTreeMap<u64, u8> = BTreeMap::new();
    let mut matters = false;
    for (address, byte) in bytes.iter().zip(sector) {
        matters |= filled.insert(*address, *byte).is_some_and(|other| other != *byte);
    }
    match (record.reads_sectors(), matters) {
        (false, _) => vec![WRITE_TWICE],
        (true, true) => vec![READ_TWICE, ORDER],
        (true, false) => vec![READ_TWICE],
    }
}

/// The same record with other ranges; with none it touches no data.
fn with_ranges(record: &Record, ranges: &[Range]) -> Record {
    let mut other = Record { ranges: ranges.len().max(1) as u16, ..*record };
    other.list[0] = Range::default();
    other.list[..ranges.len()].copy_from_slice(ranges);
    other
}

/// The record as it would be with some of its ranges; one without a list stays.
fn with_some(record: &Record, keep: impl Fn(usize, usize) -> bool) -> Record {
    if !record.has_list() {
        return *record;
    }
    let ranges = record.data_ranges();
    let kept: Vec<Range> = (0..ranges.len())
        .filter(|index| keep(*index, ranges.len()))
        .map(|index| ranges[index])
        .collect();
    with_ranges(record, &kept)
}

/// The record with one range from the first byte of its list's data to the
/// last, where it has such bytes.
fn with_hull(record: &Record) -> Record {
    let bytes = data_bytes(record);
    let (Some(first), Some(last)) = (bytes.first(), bytes.last()) else {
        return *record;
    };
    let hull = Range { address: *first as u32, length: (last - first + 1) as u32 };
    with_ranges(record, &[hull])
}

fn in_the_way(earlier: &[Record], picked: &Record) -> bool {
    earlier.iter().any(|record| conflict(&touched(record), &touched(picked)))
}

/// The rows of a pick that got 6, with the unfinished commands before it: would
/// it still be refused if lists had only some of their ranges?
pub fn conflict_rows(earlier: &[Record], picked: &Record) -> Vec<&'static str> {
    let still = |keep: &dyn Fn(usize, usize) -> bool| {
        let others: Vec<Record> = earlier.iter().map(|record| with_some(record, keep)).collect();
        in_the_way(&others, &with_some(picked, keep))
    };
    let mut rows = Vec::new();
    if !still(&|index, _| index == 0) {
        rows.push(NOT_FIRST);
    }
    if !still(&|index, number| index == 0 || index + 1 == number) {
        rows.push(MIDDLE);
    }
    if !still(&|index, number| index == 0 || index + 1 < number) {
        rows.push(LAST);
    }
    rows
}

/// The rows of a pick that got 0 with unfinished commands before it: would a
/// board refuse it that took too much for a command's data?
pub fn past_rows(earlier: &[Record], picked: &Record) -> Vec<&'static str> {
    let mut rows = Vec::new();
    let hulls: Vec<Record> = earlier.iter().map(with_hull).collect();
    if in_the_way(&hulls, &with_hull(picked)) {
        rows.push(PAST_HULL);
    }
    let pairs = || earlier.iter().flat_map(|record| [(record, picked), (picked, record)]);
    if pairs().any(|(one, other)| empty_inside(one, other)) {
        rows.push(PAST_EMPTY);
    }
    if pairs().any(|(one, other)| writes_over_list(one, other)) {
        rows.push(PAST_LIST);
    }
    rows
}

/// Some range of length 0 of the one is at a data byte of the other.
fn empty_inside(one: &Record, other: &Record) -> bool {
    if !one.is_transfer() || !one.has_list() {
        return false;
    }
    let data = data_bytes(other);
    let inside = |range: &Range| range.length == 0 && data.contains(&u64::from(range.address));
    one.data_ranges().iter().any(inside)
}

/// The one writes a byte of the other's list.
fn writes_over_list(one: &Record, other: &Record) -> bool {
    if !other.is_transfer() || !other.has_list() {
        return false;
    }
    let list = own_bytes(other);
    meet(&status_bytes(one), &list) || one.reads_sectors() && meet(&data_bytes(one), &list)
}

/// The rows of a table that got 9 where some list's lengths would be right in
/// fewer bits.
pub fn refused_nine_rows(in_use: &[Record]) -> Vec<&'static str> {
    let transfers = in_use.iter().filter(|record| record.is_transfer());
    let rows: BTreeSet<_> = transfers.flat_map(|record| right_in_bits(record, BITS_NINE)).collect();
    rows.into_iter().collect()
}
