//! The rows of the count for link lists as a walk finds them: how many elements
//! they have, where they lie, and which code they bring.

use crate::board::Board;
use crate::conflict::{data_bytes, status_bytes};
use crate::iopb::Fields;
use crate::link_list::{ELEMENT_BYTES, MOST_ELEMENTS};
use crate::range::{sum_of_lengths, Range};
use crate::record::Record;
use std::collections::BTreeSet;

/// The bits that a sum of lengths might be kept in, though it can have one more
/// than these: 32 ranges of 65,535 bytes have 2,097,120.
pub const SUM_BITS: [u32; 5] = [16, 17, 18, 19, 20];

const PLAIN_4B: &str = "code 4B without a list";
const LIST_4B: &str = "code 4B, list not all in memory";
const RANGE_4B: &str = "code 4B, a range outside memory";
const EMPTY_4B: &str = "code 4B by a range of length 0 alone";
const WRAPPED_4B: &str = "code 4B, a range's end is 0 or more in 32 bits";
const NO_OPERATION_14: &str = "code 14 with SGM, No Operation";
const ABOVE_14: &str = "code 14 with SGM, command above 2";
const SUBFUNCTION_14: &str = "code 14 with SGM, byte 4 not zero";
const SGM_1E: &str = "code 1E with SGM";
const SGM_90: &str = "code 90 with SGM";
const LESS_1C: &str = "code 1C, lengths too small";
const MORE_1C: &str = "code 1C, lengths too large";
const BITS_1C: [&str; SUM_BITS.len()] = [
    "code 1C, lengths right in 16 bits",
    "code 1C, lengths right in 17 bits",
    "code 1C, lengths right in 18 bits",
    "code 1C, lengths right in 19 bits",
    "code 1C, lengths right in 20 bits",
];
const ODD_1C: &str = "code 1C with an odd address";
const OUTSIDE_1F: &str = "code 1F with a range outside memory";
const EMPTY_1F: &str = "code 1F by a range of length 0 alone";
const ONE: &str = "list of 1 element";
const SOME: &str = "list of 2 to 31 elements";
const ALL: &str = "list of 32 elements, said by 0";
const ODD_LIST: &str = "list at an odd address";
const LAST_LIST: &str = "list that ends at the end of memory";
const READ_00: &str = "code 00, read by a list";
const WRITE_00: &str = "code 00, write by a list";
const ODD_00: &str = "code 00 with an odd length";
const EMPTY_00: &str = "code 00 with a length of 0";
const END_00: &str = "code 00, a range ends at the end of memory";
const EMPTY_END_00: &str = "code 00, a range of length 0 at the end of memory";
const MORE_THAN_MEMORY: &str = "code 00, lengths above the size of memory";
const READ_OVERLAP: &str = "read with overlapping ranges";
const WRITE_OVERLAP: &str = "write with overlapping ranges";
const READ_OWN_LIST: &str = "read over its own list";
const WRITE_OWN_LIST: &str = "write of its own list";
const READ_OWN_STATUS: &str = "read by a list over its own status";

/// The names of all rows of this file, in the order in which they are printed.
pub fn names() -> Vec<&'static str> {
    let mut names = vec![
        ONE,
        SOME,
        ALL,
        ODD_LIST,
        LAST_LIST,
        NO_OPERATION_14,
        ABOVE_14,
        SUBFUNCTION_14,
        SGM_1E,
        SGM_90,
        PLAIN_4B,
        LIST_4B,
        LESS_1C,
        MORE_1C,
    ];
    names.extend(BITS_1C);
    names.extend([
        ODD_1C,
        OUTSIDE_1F,
        EMPTY_1F,
        RANGE_4B,
        EMPTY_4B,
        WRAPPED_4B,
        READ_00,
        WRITE_00,
        ODD_00,
        EMPTY_00,
        END_00,
        EMPTY_END_00,
        MORE_THAN_MEMORY,
        READ_OVERLAP,
        WRITE_OVERLAP,
        READ_OWN_LIST,
        WRITE_OWN_LIST,
        READ_OWN_STATUS,
    ]);
    names
}

/// The rows of an accepted command.
pub fn command_rows(board: &Board, fields: &Fields, record: &Record) -> Vec<&'static str> {
    if fields.sgm == 0 {
        return if record.code == 0x4B { vec![PLAIN_4B] } else { Vec::new() };
    }
    if !record.has_list() {
        return unread_rows(fields, record.code);
    }
    let mut rows = list_rows(board, record);
    rows.extend(match record.code {
        0x1C => sum_rows(record),
        0x1F => odd_rows(board, record),
        0x4B => outside_rows(board, record),
        _ => right_rows(board, record),
    });
    rows
}

/// SGM is set, and the list was not read.
fn unread_rows(fields: &Fields, code: u8) -> Vec<&'static str> {
    match code {
        0x14 if fields.command > 2 => vec![ABOVE_14],
        0x14 if fields.command == 0 => vec![NO_OPERATION_14],
        0x14 => vec![SUBFUNCTION_14],
        0x1E => vec![SGM_1E],
        0x4B => vec![LIST_4B],
        0x90 => vec![SGM_90],
        _ => Vec::new(),
    }
}

/// The addresses of the list's own bytes.
pub fn own_bytes(record: &Record) -> BTreeSet<u64> {
    let first = u64::from(record.data);
    (first..first + ELEMENT_BYTES * u64::from(record.ranges)).collect()
}

fn list_rows(board: &Board, record: &Record) -> Vec<&'static str> {
    let mut rows = vec![match u64::from(record.ranges) {
        1 => ONE,
        MOST_ELEMENTS => ALL,
        _ => SOME,
    }];
    if record.data % 2 == 1 {
        rows.push(ODD_LIST);
    }
    if own_bytes(record).last() == Some(&(board.memory_bytes() - 1)) {
        rows.push(LAST_LIST);
    }
    rows
}

fn odd(range: &Range) -> bool {
    range.address % 2 == 1
}

/// Of these names, one for each of the bits above, those of the bits in which
/// lengths that do not add up would be right.
pub fn right_in_bits(record: &Record, names: [&'static str; SUM_BITS.len()]) -> Vec<&'static str> {
    let (sum, wanted) = (sum_of_lengths(&record.data_ranges()), record.data_bytes());
    let right = |bits: u32| sum != wanted && sum % (1 << bits) == wanted % (1 << bits);
    let named = SUM_BITS.into_iter().zip(names);
    named.filter(|(bits, _)| right(*bits)).map(|(_, name)| name).collect()
}

fn sum_rows(record: &Record) -> Vec<&'static str> {
    let ranges = record.data_ranges();
    let (sum, wanted) = (sum_of_lengths(&ranges), record.data_bytes());
    let mut rows = vec![if sum < wanted { LESS_1C } else { MORE_1C }];
    rows.extend(right_in_bits(record, BITS_1C));
    if ranges.iter().any(odd) {
        rows.push(ODD_1C);
    }
    rows
}

fn odd_rows(board: &Board, record: &Record) -> Vec<&'static str> {
    let ranges = record.data_ranges();
    let mut rows = Vec::new();
    if !ranges.iter().all(|range| range.in_memory(board)) {
        rows.push(OUTSIDE_1F);
    }
    if ranges.iter().filter(|range| odd(range)).all(|range| range.length == 0) {
        rows.push(EMPTY_1F);
    }
    rows
}

fn outside_rows(board: &Board, record: &Record) -> Vec<&'static str> {
    let ranges = record.data_ranges();
    let outside: Vec<&Range> = ranges.iter().filter(|range| !range.in_memory(board)).collect();
    let mut rows = vec![RANGE_4B];
    if outside.iter().all(|range| range.length == 0) {
        rows.push(EMPTY_4B);
    }
    if outside.iter().any(|range| range.bytes().end >= 1 << 32) {
        rows.push(WRAPPED_4B);
    }
    rows
}

/// Ranges have a byte in common.
fn overlap(record: &Record) -> bool {
    (data_bytes(record).len() as u64) < record.data_bytes()
}

fn right_rows(board: &Board, record: &Record) -> Vec<&'static str> {
    let ranges = record.data_ranges();
    let read = record.reads_sectors();
    let end = board.memory_bytes();
    let data = data_bytes(record);
    let at_end = |range: &Range| range.bytes().end == end;
    let chosen = [
        (read, READ_00),
        (!read, WRITE_00),
        (ranges.iter().any(|range| range.length % 2 == 1), ODD_00),
        (ranges.iter().any(|range| range.length == 0), EMPTY_00),
        (ranges.iter().any(|range| range.length > 0 && at_end(range)), END_00),
        (ranges.iter().any(|range| range.length == 0 && at_end(range)), EMPTY_END_00),
        (record.data_bytes() > end, MORE_THAN_MEMORY),
        (read && overlap(record), READ_OVERLAP),
        (!read && overlap(record), WRITE_OVERLAP),
        (read && !data.is_disjoint(&own_bytes(record)), READ_OWN_LIST),
        (!read && !data.is_disjoint(&own_bytes(record)), WRITE_OWN_LIST),
        (read && !data.is_disjoint(&status_bytes(record)), READ_OWN_STATUS),
    ];
    chosen.into_iter().filter(|(holds, _)| *holds).map(|(_, row)| row).collect()
}
