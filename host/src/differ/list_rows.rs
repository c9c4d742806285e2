//! Rows of the counts for link lists: what codes they got, over how many of their ranges one sector
//! lay, when they made a pick wait or let it pass, and what of them gave 9.

use crate::differ::call::{Call, Reply};
use second::board::{Board, SECTOR_BYTES};
use second::iopb::view;
use second::link_list::MOST_ELEMENTS;
use second::range::Range;
use second::record::{causes, Cause, Record};

const NO_OPERATION_14: &str = "code 14 for SGM with No Operation";
const BEFORE_90: &str = "code 90 before a list is read";
const LIST_4B: &str = "code 4B, the list is not all in memory";
const SUM_1C: &str = "code 1C, of a list";
const ODD_1F: &str = "code 1F, of a list";
const RANGE_4B: &str = "code 4B, a range of the list is outside memory";
const READ_00: &str = "code 00, a read with a list";
const WRITE_00: &str = "code 00, a write with a list";
const ONE: &str = "list of 1 range";
const SOME: &str = "list of 2 to 31 ranges";
const ALL: &str = "list of 32 ranges";
const ODD_LIST: &str = "list at an odd address";
const EMPTY: &str = "code 00 with an empty range";
const ODD_LENGTH: &str = "code 00 with a range of odd length";
const STEP_1: &str = "pick moves a sector that lies in one range of a list";
const STEP_2: &str = "pick moves a sector that lies in two ranges";
const STEP_3: &str = "pick moves a sector that lies in three ranges";
const STEP_MORE: &str = "pick moves a sector that lies in more ranges";
const STEP_OVER: &str = "pick reads a sector to ranges that overlap";
const WAITS: &str = "pick waits for the data of a list";
const WAITS_LATER: &str = "pick waits for the data of a list, not of its first range";
const PASSES: &str = "pick passes a list whose ranges lie around its data";
const TOO_MANY_9: &str = "number 9 for too many ranges, alone";
const OUTSIDE_9: &str = "number 9 for a range outside memory, alone";
const SUM_9: &str = "number 9 for the sum of the ranges, alone";

/// All rows, in the order in which they are printed.
pub const ROWS: [&str; 25] = [
    NO_OPERATION_14,
    BEFORE_90,
    LIST_4B,
    SUM_1C,
    ODD_1F,
    RANGE_4B,
    READ_00,
    WRITE_00,
    ONE,
    SOME,
    ALL,
    ODD_LIST,
    EMPTY,
    ODD_LENGTH,
    STEP_1,
    STEP_2,
    STEP_3,
    STEP_MORE,
    STEP_OVER,
    WAITS,
    WAITS_LATER,
    PASSES,
    TOO_MANY_9,
    OUTSIDE_9,
    SUM_9,
];

/// The rows of a call on this ground, both as the call left them.
pub fn rows(call: &Call, reply: &Reply, ground: &Board, table: &[Record]) -> Vec<&'static str> {
    match (call, reply.number()) {
        (Call::Walk { .. }, 0) => {
            let Reply::Walked(walked) = reply else {
                unreachable!("a walk gives what a walk gives");
            };
            table[..walked.commands].iter().flat_map(|r| walked_rows(ground, r)).collect()
        }
        (Call::Pick { place, .. }, 0) => {
            let mut rows = step_rows(&table[*place]);
            rows.extend(passed(&table[..=*place]).then_some(PASSES));
            rows
        }
        (Call::Pick { place, .. }, 6) => waiting_rows(&table[..=*place]),
        (_, 9) => {
            let commands = call.commands().expect("only calls that take steps give 9");
            spoiled_row(ground, table, commands).into_iter().collect()
        }
        _ => Vec::new(),
    }
}

/// The rows of a command that a walk accepted.
fn walked_rows(ground: &Board, record: &Record) -> Vec<&'static str> {
    let (_, fields) = view(ground, record.iopb.into());
    if fields.sgm == 0 {
        return Vec::new();
    }
    if !record.has_list() {
        return match (record.code, fields.command) {
            (0x14, 0) => vec![NO_OPERATION_14],
            (0x90, _) => vec![BEFORE_90],
            (0x4B, _) => vec![LIST_4B],
            _ => Vec::new(),
        };
    }
    let mut rows = vec![match u64::from(record.ranges) {
        1 => ONE,
        MOST_ELEMENTS => ALL,
        _ => SOME,
    }];
    rows.extend((record.data % 2 == 1).then_some(ODD_LIST));
    rows.extend(code_rows(record));
    rows
}

/// The rows of a command whose list the walk read, by its code.
fn code_rows(record: &Record) -> Vec<&'static str> {
    match record.code {
        0x1C => vec![SUM_1C],
        0x1F => vec![ODD_1F],
        0x4B => vec![RANGE_4B],
        _ => {
            let ranges = record.data_ranges();
            let mut rows = vec![if record.reads_sectors() { READ_00 } else { WRITE_00 }];
            rows.extend(ranges.iter().any(|range| range.length == 0).then_some(EMPTY));
            rows.extend(ranges.iter().any(|range| range.length % 2 == 1).then_some(ODD_LENGTH));
            rows
        }
    }
}

/// The pieces of ranges in which the sector of the step before lies.
fn pieces(record: &Record) -> Vec<Range> {
    let from = SECTOR_BYTES * (u64::from(record.taken) - 1);
    let mut begins = 0;
    let mut found = Vec::new();
    for range in record.data_ranges() {
        let ends = begins + u64::from(range.length);
        let (first, end) = (from.max(begins), (from + SECTOR_BYTES).min(ends));
        if first < end {
            let address = range.address + (first - begins) as u32;
            found.push(Range { address, length: (end - first) as u32 });
        }
        begins = ends;
    }
    found
}

/// The rows of a step that a pick has taken of this command.
fn step_rows(record: &Record) -> Vec<&'static str> {
    if !record.is_transfer() || !record.has_list() {
        return Vec::new();
    }
    let pieces = pieces(record);
    let mut rows = vec![match pieces.len() {
        1 => STEP_1,
        2 => STEP_2,
        3 => STEP_3,
        _ => STEP_MORE,
    }];
    let over = (1..pieces.len()).any(|k| meet(&pieces[..k], &pieces[k..=k]));
    rows.extend((over && record.reads_sectors()).then_some(STEP_OVER));
    rows
}

/// Whether some of these ranges have a byte in common with some of those.
fn meet(these: &[Range], those: &[Range]) -> bool {
    let common = |one: &Range, other: &Range| {
        let (one, other) = (one.bytes(), other.bytes());
        one.start.max(other.start) < one.end.min(other.end)
    };
    these.iter().any(|one| those.iter().any(|other| common(one, other)))
}

/// The one range from the first byte of all of these to their last.
fn hull(ranges: &[Range]) -> Range {
    let bytes = || ranges.iter().map(Range::bytes).filter(|bytes| !bytes.is_empty());
    let start = bytes().map(|bytes| bytes.start).min().unwrap_or(0);
    let end = bytes().map(|bytes| bytes.end).max().unwrap_or(0);
    Range { address: start as u32, length: (end - start) as u32 }
}

/// The last of these commands with each earlier one that is not finished, where both move data, one
/// of them has a list and one of them reads.
fn pairs(commands: &[Record]) -> Vec<(&Record, &Record)> {
    let (last, earlier) = commands.split_last().expect("there is a command that was picked");
    let moving = earlier.iter().filter(|record| !record.finished() && record.is_transfer());
    let pairs = moving.map(|record| (record, last)).filter(|(one, last)| {
        last.is_transfer()
            && (one.has_list() || last.has_list())
            && (one.reads_sectors() || last.reads_sectors())
    });
    pairs.collect()
}

/// The rows of a pick that has to wait, if the data of a list is why.
fn waiting_rows(commands: &[Record]) -> Vec<&'static str> {
    let mut rows = Vec::new();
    for (one, last) in pairs(commands) {
        let (these, those) = (one.data_ranges(), last.data_ranges());
        if meet(&these, &those) {
            rows.push(WAITS);
            rows.extend((!meet(&these[..1], &those[..1])).then_some(WAITS_LATER));
        }
    }
    rows
}

/// Whether the last of these commands went past one whose data lies around its own and shares no byte
/// with it.
fn passed(commands: &[Record]) -> bool {
    pairs(commands).iter().any(|(one, last)| {
        let (these, those) = (one.data_ranges(), last.data_ranges());
        meet(&[hull(&these)], &[hull(&those)])
    })
}

/// The row of a call that gave 9 for a list, and for nothing else.
fn spoiled_row(ground: &Board, table: &[Record], commands: usize) -> Option<&'static str> {
    let found: Vec<Cause> = causes(ground, table, commands as u64).into_iter().collect();
    match found[..] {
        [Cause::RangesOverThirtyTwo] => Some(TOO_MANY_9),
        [Cause::RangeOutside] => Some(OUTSIDE_9),
        [Cause::LengthsOff] => Some(SUM_9),
        _ => None,
    }
}
