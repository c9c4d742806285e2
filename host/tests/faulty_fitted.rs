//! Boards with a fault in how much would have fitted: each is found out by a stored case, and by random
//! chains too.

mod before;
mod playing;
mod stored;

use before::Before;
use host::archive::{Images, ImagesMut};
use host::boards::{Board, ORDINARY};
use host::declared::{Drive, LentDrives, Link, Record, Walked};
use playing::must_be_found;
use stored::{found_by, has_short_images};

const SECTOR: u64 = 512;
const SGM: u8 = 0x10;

/// No fault here needs a long image.
fn must_be_found_twice(what: &str, faulty: Board) {
    let found = found_by(&faulty, has_short_images);
    let case = found.unwrap_or_else(|| panic!("no stored case finds a board that {what}"));
    println!("a board that {what}: {}", case.lines().next().unwrap_or(""));
    must_be_found(what, faulty);
}

/// Without a fault nothing is found, so what is found below is the fault.
#[test]
fn the_ordinary_board_plays_the_stored_cases() {
    assert_eq!(found_by(&ORDINARY, |_| true), None);
}

fn sectors(drive: Drive) -> u64 {
    let (head, sector) = (u64::from(drive.head), u64::from(drive.sector));
    let per_cylinder = head * (sector + 1) + u64::from(drive.last_sector) + 1;
    (u64::from(drive.cylinder) + 1) * per_cylinder
}

/// Whether a command that was just walked goes past the end of the drive. There at least one sector
/// fits.
fn past_drive(record: &Record) -> bool {
    record.code == 0x10 && record.fitted != 0
}

/// Whether a command without a link list goes past the end of memory.
fn past_memory(record: &Record) -> bool {
    record.code == 0x4B && record.byte0 & SGM == 0
}

/// The number that such a command tells, not yet kept in a byte.
fn fitted_before_an_end(memory: &[u8], drive: Drive, record: &Record) -> u64 {
    if past_drive(record) {
        sectors(drive) - u64::from(record.sector)
    } else {
        bytes_from(memory, record.address) / SECTOR
    }
}

fn bytes_from(memory: &[u8], address: u32) -> u64 {
    (memory.len() as u64).saturating_sub(address.into())
}

fn capped(number: u64) -> u8 {
    number.min(255) as u8
}

type Walking<'a> = (&'a [u8], &'a Images<'a>, &'a LentDrives, u32);

/// Walks as the ordinary board does, and then changes the records of the commands, each with the drive of
/// its own unit.
fn walk_then(
    change: fn(&[u8], Drive, &mut Record),
    (memory, images, drives, start): Walking,
    table: &mut [Record],
) -> Walked {
    let walked = (ORDINARY.walk)(memory, images, drives, start, table);
    for record in &mut table[..walked.commands] {
        let drive = drives.units.get(usize::from(record.unit));
        change(memory, drive.copied().unwrap_or_default(), record);
    }
    walked
}

#[test]
fn a_number_worked_out_wrong_is_found() {
    must_be_found_twice(
        "tells the sectors that did not fit",
        Board {
            walk: |memory, images, drives, start, table| {
                let change = |memory: &[u8], drive: Drive, record: &mut Record| {
                    if past_drive(record) || past_memory(record) {
                        let fitted = fitted_before_an_end(memory, drive, record);
                        record.fitted = capped(u64::from(record.count) - fitted);
                    }
                };
                walk_then(change, (memory, images, drives, start), table)
            },
            ..ORDINARY
        },
    );
    must_be_found_twice(
        "rounds up",
        Board {
            walk: |memory, images, drives, start, table| {
                let change = |memory: &[u8], _: Drive, record: &mut Record| {
                    if past_memory(record) {
                        record.fitted = capped(bytes_from(memory, record.address).div_ceil(SECTOR));
                    }
                };
                walk_then(change, (memory, images, drives, start), table)
            },
            ..ORDINARY
        },
    );
}

#[test]
fn a_number_of_the_other_end_is_found() {
    must_be_found_twice(
        "tells memory's number where both ends are passed",
        Board {
            walk: |memory, images, drives, start, table| {
                let change = |memory: &[u8], _: Drive, record: &mut Record| {
                    let fitted = bytes_from(memory, record.address) / SECTOR;
                    let past = fitted < u64::from(record.count) && record.byte0 & SGM == 0;
                    if past_drive(record) && past {
                        record.fitted = capped(fitted);
                    }
                };
                walk_then(change, (memory, images, drives, start), table)
            },
            ..ORDINARY
        },
    );
}

#[test]
fn a_large_number_kept_wrong_is_found() {
    must_be_found_twice(
        "keeps the lowest byte of a larger number",
        Board {
            walk: |memory, images, drives, start, table| {
                let change = |memory: &[u8], drive: Drive, record: &mut Record| {
                    if past_drive(record) {
                        record.fitted = fitted_before_an_end(memory, drive, record) as u8;
                    }
                };
                walk_then(change, (memory, images, drives, start), table)
            },
            ..ORDINARY
        },
    );
    must_be_found_twice(
        "tells 254 of all that is more",
        Board {
            walk: |memory, images, drives, start, table| {
                let change = |_: &[u8], _: Drive, record: &mut Record| {
                    record.fitted = record.fitted.min(254);
                };
                walk_then(change, (memory, images, drives, start), table)
            },
            ..ORDINARY
        },
    );
}

#[test]
fn a_number_where_none_is_told_is_found() {
    must_be_found_twice(
        "tells a number for a cylinder above its maximum",
        Board {
            walk: |memory, images, drives, start, table| {
                let change = |_: &[u8], drive: Drive, record: &mut Record| {
                    if record.code == 0x10 && record.fitted == 0 {
                        // less than nothing is left, which wraps
                        let left = (sectors(drive) as u32).wrapping_sub(record.sector);
                        record.fitted = capped(left.into());
                    }
                };
                walk_then(change, (memory, images, drives, start), table)
            },
            ..ORDINARY
        },
    );
    must_be_found_twice(
        "tells a number for 4BH of a range of a list",
        Board {
            walk: |memory, images, drives, start, table| {
                let change = |memory: &[u8], _: Drive, record: &mut Record| {
                    let outside = |link: &&Link| {
                        u64::from(link.length) > bytes_from(memory, link.address)
                            || link.address as usize > memory.len()
                    };
                    let links = &record.list[..record.ranges.min(32).into()];
                    if let (0x4B, Some(link)) = (record.code, links.iter().find(outside)) {
                        record.fitted = capped(bytes_from(memory, link.address) / SECTOR);
                    }
                };
                walk_then(change, (memory, images, drives, start), table)
            },
            ..ORDINARY
        },
    );
}

#[test]
fn what_an_earlier_walk_left_is_found() {
    must_be_found_twice(
        "keeps the number of an earlier walk where it has none to tell",
        Board {
            walk: |memory, images, drives, start, table| {
                let before: Vec<u8> = table.iter().map(|record| record.fitted).collect();
                let walked = (ORDINARY.walk)(memory, images, drives, start, table);
                for (record, old) in table[..walked.commands].iter_mut().zip(before) {
                    record.fitted = if record.fitted == 0 { old } else { record.fitted };
                }
                walked
            },
            ..ORDINARY
        },
    );
}

#[test]
fn a_number_that_is_forgotten_is_found() {
    must_be_found_twice(
        "forgets the number where a command with a list gets 10H",
        Board {
            walk: |memory, images, drives, start, table| {
                let change = |_: &[u8], _: Drive, record: &mut Record| {
                    if record.code == 0x10 && record.byte0 & SGM != 0 {
                        record.fitted = 0;
                    }
                };
                walk_then(change, (memory, images, drives, start), table)
            },
            ..ORDINARY
        },
    );
    must_be_found_twice(
        "forgets the number once it is posted",
        Board {
            pick: |memory, images, drives, table, commands, place| {
                let lent = (memory, images, drives, table);
                pick_then(lent, (commands, place), |_, _, record| record.fitted = 0)
            },
            ..ORDINARY
        },
    );
}

type Lent<'a, 'b> = (&'a mut [u8], &'a mut ImagesMut<'b>, &'a LentDrives, &'a mut [Record]);

/// Picks as the ordinary board does, and then, where the command was closed by it, changes something:
/// from memory as it was before.
fn pick_then(
    (memory, images, drives, table): Lent,
    (commands, place): (usize, usize),
    change: fn(&mut [u8], &[u8], &mut Record),
) -> u8 {
    let before = memory.to_vec();
    let number = (ORDINARY.pick)(memory, images, drives, table, commands, place);
    if let Some(record) = table.get_mut(place).filter(|_| number == 0) {
        let moves = record.code == 0 && matches!(record.byte0 & 15, 1 | 2);
        if record.taken == if moves { record.count.into() } else { 1 } {
            change(memory, &before, record);
        }
    }
    number
}

fn byte3(record: &Record) -> usize {
    record.iopb as usize + 3
}

#[test]
fn a_number_posted_wrong_is_found() {
    must_be_found_twice(
        "posts 0 whatever the record says",
        Board {
            pick: |memory, images, drives, table, commands, place| {
                let lent = (memory, images, drives, table);
                pick_then(lent, (commands, place), |memory, _, record| {
                    memory[byte3(record)] = 0;
                })
            },
            ..ORDINARY
        },
    );
    must_be_found_twice(
        "posts a number with codes other than 00 alone",
        Board {
            pick: |memory, images, drives, table, commands, place| {
                let lent = (memory, images, drives, table);
                pick_then(lent, (commands, place), |memory, _, record| {
                    if record.code == 0 {
                        memory[byte3(record)] = 0;
                    }
                })
            },
            ..ORDINARY
        },
    );
}

#[test]
fn a_number_taken_from_memory_at_the_close_is_found() {
    must_be_found_twice(
        "leaves byte 3 as it lies in memory at the close",
        Board {
            pick: |memory, images, drives, table, commands, place| {
                let lent = (memory, images, drives, table);
                pick_then(lent, (commands, place), |memory, before, record| {
                    memory[byte3(record)] = before[byte3(record)];
                })
            },
            ..ORDINARY
        },
    );
    must_be_found_twice(
        "works the number out at the close, from what lies in the IOPB by then",
        Board {
            pick: |memory, images, drives, table, commands, place| {
                let number = (ORDINARY.pick)(memory, images, drives, table, commands, place);
                let Some(record) = table.get(place).filter(|_| number == 0) else {
                    return number;
                };
                let mut again = [Record::default(); 32];
                let images = &images.each_ref().map(|image| &**image);
                let walked = (ORDINARY.walk)(memory, images, drives, record.iopb, &mut again);
                if matches!(record.code, 0x10 | 0x4B) && walked.number == 0 {
                    memory[byte3(record)] = again[0].fitted;
                }
                number
            },
            ..ORDINARY
        },
    );
}

#[test]
fn a_number_that_is_refused_is_found() {
    must_be_found_twice(
        "gives 9 for a record that tells a number with code 00",
        Board {
            pick: |memory, images, drives, table, commands, place| {
                let before = Before::of(memory, images, table);
                let number = (ORDINARY.pick)(memory, images, drives, table, commands, place);
                let strange = |record: &Record| record.fitted != 0 && record.code == 0;
                if number != 1 && before.table.iter().take(commands).any(strange) {
                    before.put_back(memory, images, table);
                    return 9;
                }
                number
            },
            ..ORDINARY
        },
    );
}
