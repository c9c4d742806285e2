//! Boards with a fault in what they do with link lists: each is found out.

mod before;
mod playing;

use before::Before;
use host::archive::Images;
use host::boards::{Board, ORDINARY};
use host::declared::{LentDrives, Link, Record};
use playing::must_be_found;
use std::ops::Range;

const SECTOR: usize = 512;

/// A transfer that has a list.
fn listed(record: &Record) -> bool {
    record.ranges != 0 && record.code == 0 && matches!(record.byte0 & 15, 1 | 2)
}

/// The ranges that a record holds, of those that there is room for.
fn links(record: &Record) -> &[Link] {
    &record.list[..record.ranges.min(32) as usize]
}

/// Walks as the ordinary board does, and then changes the records of the commands.
fn walk_then(
    change: fn(&[u8], &mut Record),
    (memory, images, drives, start): (&[u8], &Images, &LentDrives, u32),
    table: &mut [Record],
) -> host::declared::Walked {
    let walked = (ORDINARY.walk)(memory, images, drives, start, table);
    for record in &mut table[..walked.commands] {
        change(memory, record);
    }
    walked
}

#[test]
fn a_list_copied_wrong_is_found() {
    must_be_found(
        "leaves something past the last range",
        Board {
            walk: |memory, images, drives, start, table| {
                let change = |_: &[u8], record: &mut Record| {
                    if let Some(link) = record.list.get_mut(record.ranges as usize) {
                        link.length = 1;
                    }
                };
                walk_then(change, (memory, images, drives, start), table)
            },
            ..ORDINARY
        },
    );
    must_be_found(
        "keeps no list where the lengths don't add up",
        Board {
            walk: |memory, images, drives, start, table| {
                let change = |_: &[u8], record: &mut Record| {
                    if record.code == 0x1C {
                        record.ranges = 0;
                        record.list = [Link::default(); 32];
                    }
                };
                walk_then(change, (memory, images, drives, start), table)
            },
            ..ORDINARY
        },
    );
    must_be_found(
        "keeps the two bytes of an element that are ignored",
        Board {
            walk: |memory, images, drives, start, table| {
                let change = |memory: &[u8], record: &mut Record| {
                    let elements = memory.get(record.address as usize..).unwrap_or_default();
                    let kept = &mut record.list[..record.ranges as usize];
                    for (link, element) in kept.iter_mut().zip(elements.chunks(8)) {
                        link.unused = u16::from_be_bytes([element[2], element[3]]);
                    }
                };
                walk_then(change, (memory, images, drives, start), table)
            },
            ..ORDINARY
        },
    );
}

#[test]
fn a_code_of_a_list_given_wrong_is_found() {
    must_be_found(
        "does not ask where a range of no byte lies",
        Board {
            walk: |memory, images, drives, start, table| {
                let change = |memory: &[u8], record: &mut Record| {
                    let inside = |link: &Link| {
                        let end = link.address as usize + usize::from(link.length);
                        link.length == 0 || end <= memory.len()
                    };
                    if record.code == 0x4B && record.ranges != 0 && links(record).iter().all(inside)
                    {
                        record.code = 0;
                    }
                };
                walk_then(change, (memory, images, drives, start), table)
            },
            ..ORDINARY
        },
    );
    must_be_found(
        "adds the lengths in 16 bits",
        Board {
            walk: |memory, images, drives, start, table| {
                let change = |_: &[u8], record: &mut Record| {
                    let bytes: usize =
                        links(record).iter().map(|link| usize::from(link.length)).sum();
                    let right = bytes as u16 == (SECTOR * usize::from(record.count)) as u16;
                    if record.code == 0x1C && right {
                        record.code = 0;
                    }
                };
                walk_then(change, (memory, images, drives, start), table)
            },
            ..ORDINARY
        },
    );
}

#[test]
fn a_list_looked_up_again_is_found() {
    must_be_found(
        "reads the list anew at each pick",
        Board {
            pick: |memory, images, drives, table, commands, place| {
                if let Some(record) = table.get_mut(place).filter(|record| record.ranges <= 32) {
                    let at = record.address as usize;
                    let bytes = memory.get(at..at + 8 * record.ranges as usize).unwrap_or(&[]);
                    for (link, b) in record.list.iter_mut().zip(bytes.chunks_exact(8)) {
                        link.length = u16::from_be_bytes([b[0], b[1]]);
                        link.address = u32::from_be_bytes([b[4], b[5], b[6], b[7]]);
                    }
                }
                (ORDINARY.pick)(memory, images, drives, table, commands, place)
            },
            ..ORDINARY
        },
    );
    must_be_found(
        "takes 8 bits of the number of ranges",
        Board {
            run_written: |memory, images, drives, table, commands, budget| {
                let right: Vec<u16> = table.iter().map(|record| record.ranges).collect();
                table.iter_mut().for_each(|record| record.ranges &= 0xFF);
                let ran = (ORDINARY.run_written)(memory, images, drives, table, commands, budget);
                let records = table.iter_mut().zip(right);
                records.for_each(|(record, ranges)| record.ranges = ranges);
                ran
            },
            ..ORDINARY
        },
    );
}

/// From the first byte of a command's data to its last.
fn hull(record: &Record) -> Range<usize> {
    if !listed(record) {
        let bytes = if record.code == 0 { SECTOR * usize::from(record.count) } else { 0 };
        return record.address as usize..record.address as usize + bytes;
    }
    let starts = links(record).iter().map(|link| link.address as usize);
    let ends = links(record).iter().map(|link| link.address as usize + usize::from(link.length));
    starts.min().unwrap_or(0)..ends.max().unwrap_or(0)
}

#[test]
fn a_list_taken_for_all_that_lies_between_is_found() {
    must_be_found(
        "lets a command wait for one whose ranges lie around its own",
        Board {
            pick: |memory, images, drives, table, commands, place| {
                let before = Before::of(memory, images, table);
                let number = (ORDINARY.pick)(memory, images, drives, table, commands, place);
                let own = before.table.get(place).map_or(0..0, hull);
                let around = |other: &Record| {
                    let other = hull(other);
                    own.start.max(other.start) < own.end.min(other.end)
                };
                let earlier = before.table.iter().take(place).filter(|record| listed(record));
                let open = |record: &&Record| {
                    record.taken < u32::from(record.count) && record.byte0 & 15 == 2
                };
                if number == 0 && earlier.filter(open).any(around) {
                    before.put_back(memory, images, table);
                    return 6;
                }
                number
            },
            ..ORDINARY
        },
    );
}

#[test]
fn ranges_filled_in_another_order_are_found() {
    must_be_found(
        "fills the first range of a list last",
        Board {
            pick: |memory, images, drives, table, commands, place| {
                let number = (ORDINARY.pick)(memory, images, drives, table, commands, place);
                let Some(record) = table.get(place).filter(|_| number == 0) else {
                    return number;
                };
                let read = listed(record) && record.byte0 & 15 == 2;
                let closed = record.taken == u32::from(record.count);
                if read && record.taken == 1 && !closed {
                    let Link { address, length, .. } = record.list[0];
                    let bytes = usize::from(length).min(SECTOR);
                    let (at, disk) = (address as usize, SECTOR * record.sector as usize);
                    let image = &images[usize::from(record.unit)];
                    memory[at..at + bytes].copy_from_slice(&image[disk..disk + bytes]);
                }
                number
            },
            ..ORDINARY
        },
    );
}
