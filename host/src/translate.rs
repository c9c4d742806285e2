//! The same things in the archive's words and in the second program's: units with their drives and
//! images, place, range, record, fields.

use crate::archive::{Images, ImagesMut};
use crate::declared::{Drive, LentDrives, Link, Place, Record};
use crate::field::Fields;
use second::board::{Board, Unit};
use std::array::from_fn;

/// The archive's drive, from the second program's unit.
pub fn drive_of(unit: &Unit) -> Drive {
    Drive {
        cylinder: unit.drive.max_cylinder,
        head: unit.drive.max_head,
        sector: unit.drive.max_sector,
        last_sector: unit.drive.last_head_max_sector,
        protected: unit.drive.protected,
        present: unit.there,
    }
}

/// The archive's drives, from all units of the second program's board.
pub fn drives_of(board: &Board) -> LentDrives {
    LentDrives { units: from_fn(|k| drive_of(&board.units[k])) }
}

/// What is lent of runs that lie in vectors.
pub fn lent(images: &[Vec<u8>; 4]) -> Images<'_> {
    images.each_ref().map(Vec::as_slice)
}

/// The same, to be written to.
pub fn lent_mut(images: &mut [Vec<u8>; 4]) -> ImagesMut<'_> {
    images.each_mut().map(Vec::as_mut_slice)
}

/// The second program's drive, from the archive's.
pub fn second_drive_of(drive: &Drive) -> second::drive::Drive {
    second::drive::Drive {
        max_cylinder: drive.cylinder,
        max_head: drive.head,
        max_sector: drive.sector,
        last_head_max_sector: drive.last_sector,
        protected: drive.protected,
    }
}

/// The second program's place, from the archive's.
pub fn second_place_of(place: &Place) -> second::place::Place {
    second::place::Place {
        cylinder: place.cylinder.into(),
        head: place.head.into(),
        sector: place.sector.into(),
    }
}

/// The archive's range of a list, from the second program's and the unused bytes beside it.
fn link_of(range: second::range::Range, unused: u16) -> Link {
    let length = range.length.try_into().expect("a range of a list has a length of 16 bits");
    Link { address: range.address, length, unused }
}

/// The second program's range, from the archive's of a list.
fn second_range_of(link: Link) -> second::range::Range {
    second::range::Range { address: link.address, length: link.length.into() }
}

/// The archive's record, from the second program's.
pub fn record_of(record: &second::record::Record) -> Record {
    Record {
        iopb: record.iopb,
        address: record.data,
        sector: record.sector,
        taken: record.taken,
        ranges: record.ranges,
        count: record.count,
        byte0: record.byte0,
        code: record.code,
        fitted: record.fitted,
        unit: record.unit,
        list: from_fn(|k| link_of(record.list[k], record.unused[k])),
    }
}

/// The second program's record, from the archive's.
pub fn second_record_of(record: &Record) -> second::record::Record {
    second::record::Record {
        iopb: record.iopb,
        data: record.address,
        sector: record.sector,
        taken: record.taken,
        count: record.count,
        byte0: record.byte0,
        code: record.code,
        ranges: record.ranges,
        fitted: record.fitted,
        unit: record.unit,
        list: record.list.map(second_range_of),
        unused: record.list.map(|link| link.unused),
    }
}

/// The second program's fields, from the archive's.
pub fn second_fields_of(fields: &Fields) -> second::iopb::Fields {
    second::iopb::Fields {
        errs: fields.errs.into(),
        done: fields.done.into(),
        chen: fields.chen.into(),
        sgm: fields.sgm.into(),
        command: fields.command.into(),
        code: fields.completion.into(),
        wrpt: fields.wrpt.into(),
        oncl: fields.oncl.into(),
        drdy: fields.drdy.into(),
        internal: fields.internal.into(),
        subfunction: fields.subfunction.into(),
        unit: fields.unit.into(),
        count: fields.count.into(),
        cylinder: fields.cylinder.into(),
        head: fields.head.into(),
        sector: fields.sector.into(),
        data: fields.data_address.into(),
        next: fields.next_address.into(),
    }
}
