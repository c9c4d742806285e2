//! Rows of the counts for how much would have fitted: before which end and how many, where nothing is
//! told of it, and what a close posts as the record has it.

use crate::differ::call::{Call, Reply};
use second::board::{Board, SECTOR_BYTES};
use second::code::find;
use second::drive::Drive;
use second::iopb::{view, Fields};
use second::record::Record;

const DRIVE_1: &str = "code 10 past the end, 1 fitted";
const DRIVE_2: &str = "code 10 past the end, 2 to 254 fitted";
const DRIVE_255: &str = "code 10 past the end, 255 fitted";
const DRIVE_256: &str = "code 10 past the end, 256 fitted";
const DRIVE_MORE: &str = "code 10 past the end, more than 256 fitted";
const DRIVE_REST: &str = "code 10 past the end, another number did not fit";
const DRIVE_LIST: &str = "code 10 past the end, with a list";
const DRIVE_LIST_255: &str = "code 10 past the end, with a list, 255 or more fitted";
const DRIVE_WRITE: &str = "code 10 past the end, a write on a protected drive";
const BOTH: &str = "code 10 past both ends, another number before memory's";
const CYLINDER: &str = "code 10, cylinder above its maximum";
const CYLINDER_LIST: &str = "code 10, cylinder above its maximum, with a list";
const MEMORY_0: &str = "code 4B without a list, 0 fitted, address in memory";
const MEMORY_AT: &str = "code 4B without a list, address at memory's end";
const MEMORY_PAST: &str = "code 4B without a list, address past memory's end";
const MEMORY_1: &str = "code 4B without a list, 1 fitted";
const MEMORY_2: &str = "code 4B without a list, 2 to 126 fitted";
const MEMORY_127: &str = "code 4B without a list, 127 or 128 fitted";
const MEMORY_WHOLE: &str = "code 4B without a list, no byte left over";
const MEMORY_511: &str = "code 4B without a list, 511 bytes left over";
const MEMORY_REST: &str = "code 4B without a list, another number did not fit";
const RANGE: &str = "code 4B by a range, a sector would have fitted";
const WRITE_90: &str = "code 90, the data goes past memory's end too";
const CLOSE_10: &str = "pick posts a number with code 10";
const CLOSE_4B: &str = "pick posts a number with code 4B";
const CLOSE_MOVED: &str = "pick posts a number with code 00, after the last sector";
const CLOSE_LISTED: &str = "pick posts a number with code 00, of a list";
const CLOSE_STILL: &str = "pick posts a number with code 00, no transfer";
const CLOSE_OTHER: &str = "pick posts a number with another code";
const CLOSE_CHANGED: &str = "pick posts a number, the IOPB would tell another now";
const PICK_0: &str = "pick: number 0, a record tells more than a walk would";
const PICKS_0: &str = "run by picks: number 0, the same";
const WRITTEN_0: &str = "run as written: number 0, the same";

/// All rows, in the order in which they are printed.
pub const ROWS: [&str; 33] = [
    DRIVE_1,
    DRIVE_2,
    DRIVE_255,
    DRIVE_256,
    DRIVE_MORE,
    DRIVE_REST,
    DRIVE_LIST,
    DRIVE_LIST_255,
    DRIVE_WRITE,
    BOTH,
    CYLINDER,
    CYLINDER_LIST,
    MEMORY_0,
    MEMORY_AT,
    MEMORY_PAST,
    MEMORY_1,
    MEMORY_2,
    MEMORY_127,
    MEMORY_WHOLE,
    MEMORY_511,
    MEMORY_REST,
    RANGE,
    WRITE_90,
    CLOSE_10,
    CLOSE_4B,
    CLOSE_MOVED,
    CLOSE_LISTED,
    CLOSE_STILL,
    CLOSE_OTHER,
    CLOSE_CHANGED,
    PICK_0,
    PICKS_0,
    WRITTEN_0,
];

/// The rows of a call on this ground, both as the call left them.
pub fn rows(call: &Call, reply: &Reply, ground: &Board, table: &[Record]) -> Vec<&'static str> {
    match (call, reply, reply.number()) {
        (_, Reply::Walked(walked), 0) => {
            table[..walked.commands].iter().flat_map(|r| walked_rows(ground, r)).collect()
        }
        (Call::Pick { place, commands, .. }, _, 0) => {
            let mut rows = close_rows(ground, &table[*place]);
            rows.extend(tells_more(&table[..*commands]).then_some(PICK_0));
            rows
        }
        (Call::Picks { commands, .. }, _, 0) => {
            chosen([(tells_more(&table[..*commands]), PICKS_0)])
        }
        (Call::Written { commands, .. }, _, 0) => {
            chosen([(tells_more(&table[..*commands]), WRITTEN_0)])
        }
        _ => Vec::new(),
    }
}

/// Those of some rows that hold.
fn chosen<const N: usize>(rows: [(bool, &'static str); N]) -> Vec<&'static str> {
    rows.into_iter().filter(|(holds, _)| *holds).map(|(_, row)| row).collect()
}

/// The rows of a command that a walk accepted.
fn walked_rows(ground: &Board, record: &Record) -> Vec<&'static str> {
    let (_, fields) = view(ground, record.iopb.into());
    let listed = fields.sgm == 1;
    let drive = ground.drive_of(fields.unit);
    match record.code {
        0x10 if fields.cylinder > drive.max_cylinder.into() => {
            chosen([(!listed, CYLINDER), (listed, CYLINDER_LIST)])
        }
        0x10 => drive_rows(ground, &drive, record, &fields),
        0x4B if !listed => memory_rows(ground, record),
        0x4B if record.has_list() => chosen([(range_has_room(ground, record), RANGE)]),
        0x90 if !listed => chosen([(past_memory(ground, record), WRITE_90)]),
        _ => Vec::new(),
    }
}

/// How many bytes memory has from the data address on.
fn left_in_memory(ground: &Board, record: &Record) -> u64 {
    ground.memory_bytes().saturating_sub(record.data.into())
}

/// Whether the data of a command without a list goes past the end of memory.
fn past_memory(ground: &Board, record: &Record) -> bool {
    u64::from(record.data) + record.data_bytes() > ground.memory_bytes()
}

fn drive_rows(
    ground: &Board,
    drive: &Drive,
    record: &Record,
    fields: &Fields,
) -> Vec<&'static str> {
    let fitted = drive.number_of_sectors() - u64::from(record.sector);
    let listed = fields.sgm == 1;
    let by_memory = left_in_memory(ground, record) / SECTOR_BYTES;
    let by_number = match fitted {
        1 => DRIVE_1,
        2..=254 => DRIVE_2,
        255 => DRIVE_255,
        256 => DRIVE_256,
        _ => DRIVE_MORE,
    };
    chosen([
        (true, by_number),
        (fields.count - fitted != fitted, DRIVE_REST),
        (listed, DRIVE_LIST),
        (listed && fitted >= 255, DRIVE_LIST_255),
        (fields.command == 1 && drive.protected, DRIVE_WRITE),
        (!listed && past_memory(ground, record) && by_memory != fitted.min(255), BOTH),
    ])
}

fn memory_rows(ground: &Board, record: &Record) -> Vec<&'static str> {
    let (address, memory) = (u64::from(record.data), ground.memory_bytes());
    let left = left_in_memory(ground, record);
    let (fitted, over) = (left / SECTOR_BYTES, left % SECTOR_BYTES);
    let by_number = match fitted {
        0 if address < memory => MEMORY_0,
        0 if address == memory => MEMORY_AT,
        0 => MEMORY_PAST,
        1 => MEMORY_1,
        2..=126 => MEMORY_2,
        _ => MEMORY_127,
    };
    chosen([
        (true, by_number),
        (fitted > 0 && over == 0, MEMORY_WHOLE),
        (over == SECTOR_BYTES - 1, MEMORY_511),
        (u64::from(record.count) - fitted != fitted, MEMORY_REST),
    ])
}

/// Whether there is room for a sector from the address of some range on that is outside memory.
fn range_has_room(ground: &Board, record: &Record) -> bool {
    let outside = |range: &&second::range::Range| !range.in_memory(ground);
    let room = |range: &second::range::Range| {
        u64::from(range.address) + SECTOR_BYTES <= ground.memory_bytes()
    };
    record.data_ranges().iter().filter(outside).any(room)
}

/// The rows of the command whose step a pick has taken, where it was the last one.
fn close_rows(ground: &Board, record: &Record) -> Vec<&'static str> {
    if !record.finished() || record.fitted == 0 {
        return Vec::new();
    }
    let by_code = match record.code {
        0x10 => CLOSE_10,
        0x4B => CLOSE_4B,
        0x00 if record.is_transfer() => CLOSE_MOVED,
        0x00 => CLOSE_STILL,
        _ => CLOSE_OTHER,
    };
    // a close leaves all but the status bytes, of which only byte 0 has a say here, as it was copied
    let (_, now) = view(ground, record.iopb.into());
    let told_now = find(ground, record.iopb.into(), &now).fitted;
    chosen([
        (true, by_code),
        (record.is_transfer() && record.has_list(), CLOSE_LISTED),
        (matches!(record.code, 0x10 | 0x4B) && told_now != record.fitted, CLOSE_CHANGED),
    ])
}

/// Whether a record in use tells a number though its code tells none: no call may be refused for it.
fn tells_more(in_use: &[Record]) -> bool {
    in_use.iter().any(|record| record.fitted != 0 && !matches!(record.code, 0x10 | 0x4B))
}
