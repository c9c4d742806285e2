//! The last head with a maximum of its own: codes on both sides of each line,
//! tables and looks at the drive's end.

use crate::drive::Drive;
use crate::makers::block::Block;
use crate::makers::edges::codes::run_chain;
use crate::makers::edges::{image, memory, READ, WRITE};
use crate::makers::lines::walk_and_run;
use crate::makers::script::Script;
use crate::makers::ALL_32_BITS;
use crate::record::Record;
use crate::trial::line::Line;

/// Heads 0 and 1 have 5 sectors and head 2 has 2: 12 on a cylinder, 24 in all.
/// With equal heads it would have 30.
pub const PACK: Drive = short(1, 2, 4, 1);
/// Where the data of all these cases begins.
const DATA: u64 = 0x400;
/// Memory that holds 30 sectors from there on.
pub const ROOM_FOR_THIRTY: u64 = DATA + 30 * 512;

/// Drives of many shapes: one head alone, one sector on the last head, equal
/// heads, and maxima of 255.
pub const SHAPES: [Drive; 13] = [
    short(3, 0, 5, 2),
    short(3, 0, 2, 2),
    short(3, 0, 5, 5),
    short(3, 0, 5, 0),
    short(0, 0, 3, 1),
    short(2, 1, 3, 0),
    short(1, 1, 3, 3),
    short(1, 1, 7, 6),
    short(4, 2, 3, 0),
    short(0, 255, 1, 0),
    short(0, 1, 255, 254),
    short(0, 1, 255, 0),
    short(1, 0, 255, 254),
];

/// All the cases of this file.
pub fn all(script: &mut Script) {
    own_maximum(script);
    order_of_codes(script);
    end_of_drive(script);
    shapes(script);
    nines(script);
    shrunk_to_a_shorter_head(script);
    looks(script);
}

/// An open drive by its four maxima.
pub const fn short(max_cylinder: u16, max_head: u8, max_sector: u8, last: u8) -> Drive {
    let last_head_max_sector = last;
    Drive { max_cylinder, max_head, max_sector, last_head_max_sector, protected: false }
}

/// A new case on a drive with an image of its size. Every 512 bytes of data
/// begin with a mark of their own, so that each can be told from the others.
pub fn case_on(script: &mut Script, drive: Drive, memory_bytes: u64) {
    script.case();
    script.say(Line::Drive(drive));
    script.say_all([memory(memory_bytes), image(drive.number_of_sectors())]);
    for (k, address) in (DATA..memory_bytes).step_by(512).enumerate() {
        script.say(Line::Put { address, bytes: vec![0xE0 + k as u8] });
    }
}

/// A transfer of one sector or more at a place.
pub fn transfer(place: (u64, u64, u64), count: u64) -> Block {
    let (cylinder, head, sector) = place;
    Block::new(READ).at(cylinder, head, sector).count(count).data(DATA)
}

/// One command on the pack, as a read and as a write, with looks at the number
/// that its place would have and at both sides of it.
fn both_ways(script: &mut Script, place: (u64, u64, u64)) {
    let number = PACK.sector_number(place.0, place.1, place.2);
    for command in [READ, WRITE] {
        case_on(script, PACK, 2_048);
        walk_and_run(script, transfer(place, 1).command(command), number);
        script.say_all([Line::look_0(number.saturating_sub(1)), Line::look_0(number + 1)]);
    }
}

/// Each head on both sides of its own maximum, and at the other head's.
fn own_maximum(script: &mut Script) {
    for cylinder in [0, 1] {
        for (head, sectors) in
            [(0, vec![1, 2, 4, 5, 255]), (1, vec![1, 2, 4, 5]), (2, vec![0, 1, 2, 4, 5, 255])]
        {
            for sector in sectors {
                both_ways(script, (cylinder, head, sector));
            }
        }
    }
}

/// The codes before and after 12H, on a place that has this fault too.
fn order_of_codes(script: &mut Script) {
    // A head above its maximum, and then a cylinder too.
    for place in [(0, 3, 0), (0, 3, 2), (0, 3, 5), (0, 255, 255), (2, 3, 5), (2, 2, 2)] {
        both_ways(script, place);
    }
    let past = transfer((1, 2, 2), 1);
    let last = transfer((1, 2, 1), 1);
    for protected in [false, true] {
        case_on(script, Drive { protected, ..PACK }, 2_048);
        let mut blocks = vec![past, past.count(0), past.count(2), past.count(65_535)];
        blocks.extend([past.unit(1), past.data(ALL_32_BITS), past.sgm()]);
        blocks.extend([last, last.count(2), last.data(ALL_32_BITS), last.unit(1)]);
        blocks.extend([past.command(WRITE), last.count(2).command(WRITE)]);
        blocks.extend([last.command(WRITE).data(0x600), past.command(0)]);
        run_chain(script, &blocks);
        script.say_all([22, 23].map(Line::look_0));
    }
}

/// Up to the drive's last sector and one past it, from places near to it and
/// far; and as many as equal heads would have.
fn end_of_drive(script: &mut Script) {
    for (place, fit) in [
        ((1, 2, 1), 1),
        ((1, 2, 0), 2),
        ((1, 1, 4), 3),
        ((1, 0, 0), 12),
        ((0, 2, 1), 13),
        ((0, 1, 3), 16),
        ((0, 0, 0), 24),
    ] {
        for count in [fit, fit + 1, fit + 3, fit + 6] {
            for command in [READ, WRITE] {
                case_on(script, PACK, ROOM_FOR_THIRTY);
                walk_and_run(script, transfer(place, count).command(command), 23);
                // From the sector before the first on to the one past the last.
                script.say_all((23_u64.saturating_sub(fit)..=24).map(Line::look_0));
            }
        }
    }
}

/// Each field at its maximum and past it, on drives of many shapes.
fn shapes(script: &mut Script) {
    for drive in SHAPES {
        at_its_maxima(script, drive);
    }
}

/// Reads of one sector at each maximum and past it.
fn at_its_maxima(script: &mut Script, drive: Drive) {
    let (cylinder, head) = (u64::from(drive.max_cylinder), u64::from(drive.max_head));
    let (others, last) = (u64::from(drive.max_sector), u64::from(drive.last_head_max_sector));
    let sectors = drive.number_of_sectors();
    let mut blocks = Vec::new();
    for sector in [last, (last + 1).min(255), others, (others + 1).min(255), 255] {
        for head in [0, head.saturating_sub(1), head] {
            blocks.push(transfer((cylinder, head, sector), 1));
        }
    }
    blocks.push(transfer((cylinder + 1, head, last), 1));
    blocks.push(transfer((cylinder, 255, 255), 1));
    blocks.push(transfer((65_535, 255, 255), 1));
    blocks.push(transfer((cylinder, head, last), 2));
    blocks.push(transfer((0, 0, 0), sectors).data(0));
    blocks.push(transfer((0, 0, 0), sectors + 1).data(0));
    case_on(script, drive, 2_048);
    run_chain(script, &blocks);
    let equal = drive.as_if_equal().number_of_sectors();
    script.say_all([sectors - 1, sectors, equal - 1, equal].map(Line::look_0));
}

/// A table made by hand whose sectors end at the drive's end and past it, the
/// latter also within what equal heads would have.
fn nines(script: &mut Script) {
    for (sector, count) in [
        (23, 1),
        (24, 1),
        (22, 2),
        (22, 3),
        (23, 2),
        (12, 12),
        (12, 13),
        (0, 24),
        (0, 25),
        (0, 30),
        (24, 6),
        (29, 1),
        (30, 1),
    ] {
        for byte0 in [READ, WRITE] {
            case_on(script, PACK, ROOM_FOR_THIRTY);
            let data = DATA as u32;
            script.record(0, Record { data, sector, count, byte0, ..Record::default() });
            script.say_all([Line::Commands(1), Line::Steps, Line::Pick(1), Line::Pick(0)]);
            script.picks(&[0, 0]);
            script.say_all([Line::LentPick(0), Line::Written(0), Line::Written(u64::MAX)]);
            script.say_all([0, 11, 12, 21, 22, 23, 24].map(Line::look_0));
        }
    }
}

/// The last head becomes shorter after the walk, and the image with it: the
/// record that ends at the new end goes on, the one past it does not.
fn shrunk_to_a_shorter_head(script: &mut Script) {
    for sector in [23, 24, 29] {
        case_on(script, PACK.as_if_equal(), 2_048);
        let record = Record { data: DATA as u32, sector, count: 1, ..Record::default() };
        script.record(0, Record { byte0: READ, ..record });
        script.record(1, Record { byte0: WRITE, iopb: 32, data: 0x600, ..record });
        script.say_all([Line::Commands(2), Line::Pick(0), Line::Drive(PACK), image(24)]);
        script.say_all([Line::Pick(1), Line::LentPick(1), Line::Written(1)]);
        script.say_all([Line::Drive(PACK.as_if_equal()), image(30), Line::Written(2)]);
    }
}

fn looks(script: &mut Script) {
    for drive in [PACK, short(2, 1, 3, 1), short(3, 0, 5, 2), short(2, 1, 3, 0)] {
        case_on(script, drive, 64);
        let sectors = drive.number_of_sectors();
        let equal = drive.as_if_equal().number_of_sectors();
        script.say_all((0..=sectors).map(Line::look_0));
        script.say_all([sectors + 1, equal - 1, equal, ALL_32_BITS].map(Line::look_0));
    }
}
