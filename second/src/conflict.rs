//! What each command reads and writes, as real sets of memory bytes and of
//! sectors of its unit, and whether two commands conflict. Asked only of sound
//! tables, so the sets are never larger than memory and drive.

use crate::range::Range;
use crate::record::Record;
use std::collections::BTreeSet;

/// A sector: its unit and its number there. Those of different units are never
/// the same, whatever their numbers.
pub type Sector = (u8, u64);

/// Everything that one command reads and writes, from its first step to its
/// close, whatever steps it has taken already.
#[derive(Clone, Debug, Default, PartialEq, Eq)]
pub struct Touched {
    pub memory_read: BTreeSet<u64>,
    pub memory_written: BTreeSet<u64>,
    pub sectors_read: BTreeSet<Sector>,
    pub sectors_written: BTreeSet<Sector>,
}

/// The four status bytes of a command's own IOPB.
pub fn status_bytes(record: &Record) -> BTreeSet<u64> {
    let first = u64::from(record.iopb);
    (first..first + 4).collect()
}

/// The data bytes of a transfer with code 00, of all its ranges; none for any
/// other command.
pub fn data_bytes(record: &Record) -> BTreeSet<u64> {
    if !record.is_transfer() {
        return BTreeSet::new();
    }
    record.data_ranges().iter().flat_map(Range::bytes).collect()
}

/// The sectors of a transfer with code 00, on its own unit; none for any other
/// command.
pub fn sectors(record: &Record) -> BTreeSet<Sector> {
    if !record.is_transfer() {
        return BTreeSet::new();
    }
    let first = u64::from(record.sector);
    let numbers = first..first + u64::from(record.count);
    numbers.map(|number| (record.unit, number)).collect()
}

/// The four sets of a command.
pub fn touched(record: &Record) -> Touched {
    let mut sets = Touched::default();
    if record.reads_sectors() {
        sets.sectors_read = sectors(record);
        sets.memory_written = data_bytes(record);
    }
    if record.writes_sectors() {
        sets.memory_read = data_bytes(record);
        sets.sectors_written = sectors(record);
    }
    sets.memory_written.extend(status_bytes(record));
    sets
}

/// One of the two writes a byte or sector that the other reads or writes.
pub fn conflict(one: &Touched, other: &Touched) -> bool {
    writes_into(one, other) || writes_into(other, one)
}

fn writes_into(writer: &Touched, other: &Touched) -> bool {
    meet(&writer.memory_written, &other.memory_read)
        || meet(&writer.memory_written, &other.memory_written)
        || meet(&writer.sectors_written, &other.sectors_read)
        || meet(&writer.sectors_written, &other.sectors_written)
}

/// Two sets have something in common.
pub fn meet<T: Ord>(one: &BTreeSet<T>, other: &BTreeSet<T>) -> bool {
    !one.is_disjoint(other)
}
