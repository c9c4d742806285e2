//! Rows of the counts for numbers at the edges of 16 and of 32 bits: how large a drive, a place or a
//! record's sector was, or that a board which cut a product or a sum would have answered otherwise.

use crate::differ::call::{Call, Reply};
use second::board::Board;
use second::record::Record;
use second::trial::wide::refused_one_rows;

const LARGEST: &str = "call on a drive of 2 to the 32 sectors";
const PLACE_31: &str = "place: number 0, of 2 to the 31 or more";
const PLACE_10: &str = "place: number 10, right in 16 bits";
const SIZE_1: &str = "number 1 for a size that is right in fewer bits, alone";
const RECORD_16: &str = "record with a sector of 2 to the 16 or more";

/// All rows, in the order in which they are printed.
pub const ROWS: [&str; 5] = [LARGEST, PLACE_31, PLACE_10, SIZE_1, RECORD_16];

/// The rows of a call on this ground; after a walk its commands are at the front of the table.
pub fn rows(call: &Call, reply: &Reply, ground: &Board, table: &[Record]) -> Vec<&'static str> {
    let sectors = |unit: usize| ground.units[unit].drive.number_of_sectors();
    let mut rows = Vec::new();
    if ground.present().any(|unit| unit.drive.number_of_sectors() == 1 << 32) {
        rows.push(LARGEST);
    }
    match (call, reply, reply.number()) {
        (Call::Place { sector, .. }, _, 0) if *sector >= 1 << 31 => rows.push(PLACE_31),
        (Call::Place { unit, sector }, _, 10) if u64::from(sector % (1 << 16)) < sectors(*unit) => {
            rows.push(PLACE_10);
        }
        (_, Reply::Walked(walked), 0) => {
            let wide = table[..walked.commands].iter().filter(|record| record.sector >= 1 << 16);
            rows.extend(wide.map(|_| RECORD_16));
        }
        (_, _, 1) => {
            let alone = call.unit_alone_wrong(ground);
            let found = alone.map(|(_, unit)| refused_one_rows(unit, call.word(), true));
            if found.is_some_and(|found| !found.is_empty()) {
                rows.push(SIZE_1);
            }
        }
        _ => {}
    }
    rows
}
