//! The digests that cases print: of memory, of the images, of the records.
//! They stand for all the bytes, so that a line of output stays short.

use crate::record::Record;

/// The digest of a run of bytes.
pub fn digest(bytes: &[u8]) -> u64 {
    digest_end_to_end([bytes])
}

/// The digest of several runs of bytes laid end to end.
pub fn digest_end_to_end<'a>(runs: impl IntoIterator<Item = &'a [u8]>) -> u64 {
    let mut h: u64 = 2_166_136_261;
    for byte in runs.into_iter().flatten() {
        h = ((h + u64::from(*byte)) * 16_777_619) % (1 << 32);
    }
    h
}

/// The digest of records, each number with its high byte first.
pub fn digest_of_records(table: &[Record]) -> u64 {
    let mut bytes = Vec::new();
    for record in table {
        bytes.extend(record.iopb.to_be_bytes());
        bytes.extend(record.data.to_be_bytes());
        bytes.extend(record.sector.to_be_bytes());
        bytes.extend(record.taken.to_be_bytes());
        bytes.extend(record.count.to_be_bytes());
        bytes.push(record.byte0);
        bytes.push(record.code);
        bytes.extend(record.ranges.to_be_bytes());
        bytes.extend([record.fitted, record.unit]);
        for (range, unused) in record.list.iter().zip(record.unused) {
            let length = u16::try_from(range.length).expect("an element's length has 16 bits");
            bytes.extend(range.address.to_be_bytes());
            bytes.extend(length.to_be_bytes());
            bytes.extend(unused.to_be_bytes());
        }
    }
    digest(&bytes)
}
