//! Boards with a fault in what several units ask for: each is found out by a stored case, and by random
//! chains too.

mod before;
mod playing;
mod stored;

use before::Before;
use host::archive::{Images, ImagesMut};
use host::boards::{Board, ORDINARY};
use host::declared::{Drive, LentDrives, Ran, Record, Walked, UNITS};
use host::field::Fields;
use playing::must_be_found;
use stored::{found_by, has_short_images};

const SECTOR: usize = 512;

/// The cases that set more than unit 0. No fault here needs a long image.
fn about_units(case: &str) -> bool {
    has_short_images(case) && case.contains("\nunit ")
}

fn must_be_found_twice(what: &str, faulty: Board) {
    let found = found_by(&faulty, about_units);
    let case = found.unwrap_or_else(|| panic!("no stored case finds a board that {what}"));
    println!("a board that {what}: {}", case.lines().next().unwrap_or(""));
    must_be_found(what, faulty);
}

/// The drive of a unit that is there.
fn there(drives: &LentDrives, unit: u8) -> Option<Drive> {
    drives.units.get(usize::from(unit)).copied().filter(|drive| drive.present)
}

fn moves(record: &Record) -> bool {
    record.code == 0 && matches!(record.byte0 & 15, 1 | 2)
}

fn writes(record: &Record) -> bool {
    moves(record) && record.byte0 & 15 == 1
}

fn finished(record: &Record) -> bool {
    record.taken == if moves(record) { record.count.into() } else { 1 }
}

/// So many sectors as a drive has, in bytes; more than any image where its last head is too long.
fn image_bytes(drive: Drive) -> usize {
    if drive.last_sector > drive.sector {
        return usize::MAX;
    }
    let (head, sector) = (usize::from(drive.head), usize::from(drive.sector));
    let per_cylinder = head * (sector + 1) + usize::from(drive.last_sector) + 1;
    SECTOR * (usize::from(drive.cylinder) + 1) * per_cylinder
}

fn read_only<'a>(images: &'a ImagesMut) -> Images<'a> {
    images.each_ref().map(|image| &**image)
}

/// Whether an earlier unfinished command has sectors of the same numbers on another unit, and one of the
/// two writes them.
fn same_numbers_elsewhere(table: &[Record], place: usize) -> bool {
    let range = |r: &Record| u64::from(r.sector)..u64::from(r.sector) + u64::from(r.count);
    let own = &table[place];
    let meets = |other: &Record| {
        let (one, other_range) = (range(own), range(other));
        moves(other)
            && !finished(other)
            && other.unit != own.unit
            && (writes(own) || writes(other))
            && one.start.max(other_range.start) < one.end.min(other_range.end)
    };
    moves(own) && table[..place].iter().any(meets)
}

/// A pick that asks for sectors without their units.
fn pick_by_numbers(
    memory: &mut [u8],
    images: &mut ImagesMut,
    drives: &LentDrives,
    table: &mut [Record],
    commands: usize,
    place: usize,
) -> u8 {
    let before = Before::of(memory, images, table);
    let number = (ORDINARY.pick)(memory, images, drives, table, commands, place);
    if number == 0 && same_numbers_elsewhere(&before.table, place) {
        before.put_back(memory, images, table);
        return 6;
    }
    number
}

#[test]
fn sectors_of_two_units_taken_for_the_same_are_found() {
    must_be_found_twice(
        "lets a pick wait for the same sectors of another unit",
        Board { pick: pick_by_numbers, ..ORDINARY },
    );
    must_be_found_twice(
        "has no unit in what a command touches, in a run",
        Board {
            run_picks: |memory, images, drives, table, commands, picks| {
                let ran = (ORDINARY.run_picks)(memory, images, drives, table, commands, &[]);
                if ran.number != 0 {
                    return ran;
                }
                let mut taken = 0;
                for place in picks.iter().map(|place| usize::from(*place)) {
                    let number = pick_by_numbers(memory, images, drives, table, commands, place);
                    taken += u64::from(number == 0);
                }
                let finished = table[..commands].iter().all(finished);
                Ran { steps: taken, refused: picks.len() as u64 - taken, number: 0, finished }
            },
            ..ORDINARY
        },
    );
}

type Lent<'a, 'b> = (&'a mut [u8], &'a mut ImagesMut<'b>, &'a LentDrives, &'a mut [Record]);

/// Picks as the ordinary board does, and posts another byte 2 where the command was closed by it and
/// there is one.
fn pick_and_post(
    (memory, images, drives, table): Lent,
    (commands, place): (usize, usize),
    byte_2: fn(&LentDrives, &Record) -> Option<u8>,
) -> u8 {
    let number = (ORDINARY.pick)(memory, images, drives, table, commands, place);
    if let Some(record) = table.get(place).filter(|record| number == 0 && finished(record)) {
        if let Some(byte) = byte_2(drives, record) {
            memory[record.iopb as usize + 2] = byte;
        }
    }
    number
}

#[test]
fn a_byte_2_of_the_wrong_drive_is_found() {
    must_be_found_twice(
        "posts byte 2 by unit 0",
        Board {
            pick: |memory, images, drives, table, commands, place| {
                let by_first = |drives: &LentDrives, _: &Record| {
                    let protected = there(drives, 0).is_some_and(|drive| drive.protected);
                    Some(if protected { 0x13 } else { 0x03 })
                };
                pick_and_post((memory, images, drives, table), (commands, place), by_first)
            },
            ..ORDINARY
        },
    );
    must_be_found_twice(
        "posts 13H for an absent unit whose mark is set",
        Board {
            pick: |memory, images, drives, table, commands, place| {
                let by_lent = |drives: &LentDrives, record: &Record| {
                    let drive = drives.units.get(usize::from(record.unit))?;
                    (!drive.present && drive.protected).then_some(0x13)
                };
                pick_and_post((memory, images, drives, table), (commands, place), by_lent)
            },
            ..ORDINARY
        },
    );
}

/// Whether something other than nothing is lent for an absent unit, and is no image of its drive.
fn absent_is_wrong(images: &Images, drives: &LentDrives) -> bool {
    let mut both = images.iter().zip(drives.units);
    both.any(|(image, drive)| {
        !drive.present && !image.is_empty() && image.len() != image_bytes(drive)
    })
}

/// Images that are right for every unit but the first, so that only unit 0's size is tested.
fn right_but_first(images: &Images, drives: &LentDrives) -> ([Vec<u8>; UNITS], LentDrives) {
    let mut drives = *drives;
    let mut right = images.map(<[u8]>::to_vec);
    for (drive, image) in drives.units.iter_mut().zip(&mut right).skip(1) {
        let bytes = image_bytes(*drive);
        if drive.present && image.len() != bytes {
            *drive = Drive { present: true, ..Drive::default() };
            image.resize(SECTOR, 0);
        }
    }
    (right, drives)
}

#[test]
fn a_size_of_the_wrong_unit_tested_is_found() {
    must_be_found_twice(
        "gives 1 for the image of an absent unit",
        Board {
            walk: |memory, images, drives, start, table| {
                if absent_is_wrong(images, drives) {
                    return Walked { number: 1, commands: 0 };
                }
                (ORDINARY.walk)(memory, images, drives, start, table)
            },
            ..ORDINARY
        },
    );
    must_be_found_twice(
        "gives 1 in a look for the image of an absent unit",
        Board {
            look_number: |images, drives, unit, sector| {
                if absent_is_wrong(images, drives) {
                    return 1;
                }
                (ORDINARY.look_number)(images, drives, unit, sector)
            },
            ..ORDINARY
        },
    );
    must_be_found_twice(
        "tests the size of unit 0's image alone",
        Board {
            look_number: |images, drives, unit, sector| {
                let (right, drives) = right_but_first(images, drives);
                let images = right.each_ref().map(Vec::as_slice);
                (ORDINARY.look_number)(&images, &drives, unit, sector)
            },
            ..ORDINARY
        },
    );
}

#[test]
fn a_look_with_its_numbers_in_another_order_is_found() {
    must_be_found_twice(
        "gives 10 before 11",
        Board {
            look_number: |images, drives, unit, sector| {
                match (ORDINARY.look_number)(images, drives, unit, sector) {
                    // an absent unit counts as a drive of one sector
                    11 if sector > 0 => 10,
                    number => number,
                }
            },
            ..ORDINARY
        },
    );
    must_be_found_twice(
        "gives 11 before 1",
        Board {
            look_number: |images, drives, unit, sector| match there(drives, unit) {
                None => 11,
                Some(_) => (ORDINARY.look_number)(images, drives, unit, sector),
            },
            ..ORDINARY
        },
    );
    must_be_found_twice(
        "hands back the part that unit 0 has",
        Board {
            look_part: |images, drives, _, sector| (ORDINARY.look_part)(images, drives, 0, sector),
            ..ORDINARY
        },
    );
}

/// Moves the sector of the step just taken on unit 0 in place of its own, if unit 0's image has it.
fn move_on_first(memory: &mut [u8], images: &mut ImagesMut, record: &Record, before: &Before) {
    let (unit, done) = (usize::from(record.unit), record.taken as usize - 1);
    let at = SECTOR * (record.sector as usize + done);
    let sector = at..at + SECTOR;
    if images[0].len() < sector.end {
        return;
    }
    if writes(record) {
        let written = images[unit][sector.clone()].to_vec();
        images[unit][sector.clone()].copy_from_slice(&before.images[unit][sector.clone()]);
        images[0][sector].copy_from_slice(&written);
    } else if record.ranges == 0 {
        let to = record.address as usize + SECTOR * done;
        memory[to..to + SECTOR].copy_from_slice(&images[0][sector]);
    }
}

#[test]
fn a_unit_forgotten_at_the_step_is_found() {
    must_be_found_twice(
        "moves all sectors on unit 0",
        Board {
            pick: |memory, images, drives, table, commands, place| {
                let before = Before::of(memory, images, table);
                let number = (ORDINARY.pick)(memory, images, drives, table, commands, place);
                let taken = table.get(place).filter(|record| number == 0 && moves(record));
                if let Some(record) = taken.filter(|record| record.unit != 0) {
                    move_on_first(memory, images, record, &before);
                }
                number
            },
            ..ORDINARY
        },
    );
    must_be_found_twice(
        "gives 9 by the drive of unit 0",
        Board {
            pick: |memory, images, drives, table, commands, place| {
                let mut on_first = Before::of(memory, images, table);
                on_first.table.iter_mut().for_each(|record| record.unit = 0);
                let Before { memory: memory_2, images: images_2, table: table_2 } = &mut on_first;
                let images_2 = &mut images_2.each_mut().map(Vec::as_mut_slice);
                let number = (ORDINARY.pick)(memory_2, images_2, drives, table_2, commands, place);
                if number == 9 {
                    return 9;
                }
                (ORDINARY.pick)(memory, images, drives, table, commands, place)
            },
            ..ORDINARY
        },
    );
}

/// The drives with all those there whose image is right: what is lent for an absent unit is believed.
fn believed(images: &Images, drives: &LentDrives) -> LentDrives {
    let mut believed = *drives;
    for (drive, image) in believed.units.iter_mut().zip(images) {
        drive.present |= image.len() == image_bytes(*drive);
    }
    believed
}

#[test]
fn an_absent_unit_taken_for_one_that_is_there_is_found() {
    must_be_found_twice(
        "accepts a transfer on an absent unit by what is lent for it",
        Board {
            walk: |memory, images, drives, start, table| {
                (ORDINARY.walk)(memory, images, &believed(images, drives), start, table)
            },
            ..ORDINARY
        },
    );
    must_be_found_twice(
        "takes the step of a transfer on an absent unit",
        Board {
            pick: |memory, images, drives, table, commands, place| {
                let number = (ORDINARY.pick)(memory, images, drives, table, commands, place);
                if number != 9 {
                    return number;
                }
                let believed = believed(&read_only(images), drives);
                (ORDINARY.pick)(memory, images, &believed, table, commands, place)
            },
            ..ORDINARY
        },
    );
}

#[test]
fn a_42h_where_nothing_is_to_be_moved_is_found() {
    must_be_found_twice(
        "gives 42H to a No Operation on an absent unit",
        Board {
            walk: |memory, images, drives, start, table| {
                let walked = (ORDINARY.walk)(memory, images, drives, start, table);
                for record in &mut table[..walked.commands] {
                    let still = record.code == 0 && record.byte0 & 15 == 0;
                    if still && there(drives, record.unit).is_none() {
                        record.code = 0x42;
                    }
                }
                walked
            },
            ..ORDINARY
        },
    );
}

/// Walks as the ordinary board does over a memory whose IOPBs have only these bits of byte 5.
fn walk_with_bits(
    bits: u8,
    (memory, images, drives, start): (&[u8], &Images, &LentDrives, u32),
    table: &mut [Record],
) -> Walked {
    let walked = (ORDINARY.walk)(memory, images, drives, start, table);
    let mut cut = memory.to_vec();
    for record in &table[..walked.commands] {
        cut[record.iopb as usize + 5] &= bits;
    }
    (ORDINARY.walk)(&cut, images, drives, start, table)
}

#[test]
fn a_code_by_the_wrong_unit_is_found() {
    must_be_found_twice(
        "looks at two bits of the unit, and takes 4 for 0",
        Board {
            walk: |memory, images, drives, start, table| {
                walk_with_bits(0x03, (memory, images, drives, start), table)
            },
            ..ORDINARY
        },
    );
    must_be_found_twice(
        "goes by the maxima of unit 0 for the code",
        Board {
            walk: |memory, images, drives, start, table| {
                let mut on_first = table.to_vec();
                walk_with_bits(0, (memory, images, drives, start), &mut on_first);
                let walked = (ORDINARY.walk)(memory, images, drives, start, table);
                for (record, first) in table[..walked.commands].iter_mut().zip(on_first) {
                    let maximum = |code: u8| matches!(code, 0x00 | 0x10..=0x12);
                    if there(drives, record.unit).is_some() && maximum(record.code) {
                        (record.code, record.fitted) = (first.code, first.fitted);
                    }
                }
                walked
            },
            ..ORDINARY
        },
    );
}

#[test]
fn a_record_with_the_wrong_unit_is_found() {
    must_be_found_twice(
        "keeps the unit of an earlier walk",
        Board {
            walk: |memory, images, drives, start, table| {
                let before: Vec<u8> = table.iter().map(|record| record.unit).collect();
                let walked = (ORDINARY.walk)(memory, images, drives, start, table);
                for (record, old) in table[..walked.commands].iter_mut().zip(before) {
                    record.unit = old;
                }
                walked
            },
            ..ORDINARY
        },
    );
    must_be_found_twice(
        "keeps all of byte 5 for the unit",
        Board {
            walk: |memory, images, drives, start, table| {
                let walked = (ORDINARY.walk)(memory, images, drives, start, table);
                for record in &mut table[..walked.commands] {
                    record.unit = memory[record.iopb as usize + 5];
                }
                walked
            },
            ..ORDINARY
        },
    );
}

/// The number of the sector that an IOPB names, on a drive, cut to 32 bits.
fn number_on(drive: &Drive, f: Fields) -> u32 {
    let per_track = u32::from(drive.sector) + 1;
    let per_cylinder = u32::from(drive.head) * per_track + u32::from(drive.last_sector) + 1;
    let on_cylinder = u32::from(f.head) * per_track + u32::from(f.sector);
    u32::from(f.cylinder).wrapping_mul(per_cylinder).wrapping_add(on_cylinder)
}

#[test]
fn a_first_sector_by_the_wrong_drive_is_found() {
    must_be_found_twice(
        "works out the first sector's number on an absent unit by what is lent for it",
        Board {
            walk: |memory, images, drives, start, table| {
                let walked = (ORDINARY.walk)(memory, images, drives, start, table);
                for record in table[..walked.commands].iter_mut().filter(|r| r.code == 0x42) {
                    if let Some(drive) = drives.units.get(usize::from(record.unit)) {
                        record.sector = number_on(drive, (ORDINARY.view)(memory, record.iopb));
                    }
                }
                walked
            },
            ..ORDINARY
        },
    );
    must_be_found_twice(
        "works out the first sector's number by unit 0",
        Board {
            walk: |memory, images, drives, start, table| {
                let walked = (ORDINARY.walk)(memory, images, drives, start, table);
                for record in &mut table[..walked.commands] {
                    let fields = (ORDINARY.view)(memory, record.iopb);
                    record.sector = number_on(&drives.units[0], fields);
                }
                walked
            },
            ..ORDINARY
        },
    );
}
