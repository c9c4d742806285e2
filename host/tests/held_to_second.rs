//! Random chains: the archive and the ordinary board are held to the second program, every number
//! and code comes up, and a board with a fault is found out.

mod playing;

use host::boards::{Board, ARCHIVE, ORDINARY};
use host::declared::{Drive, Place, Placed, Ran};
use playing::{must_be_found, played};

/// Chains for a board that is to come out right.
const CHAINS: u64 = 12_000;

fn hold(board: &Board, seed: u64) {
    let counts = played(board, seed, CHAINS).unwrap_or_else(|what| panic!("{what}"));
    assert_eq!(counts.never(), Vec::<String>::new(), "these never came up");
    assert!(counts.strange().is_empty(), "no rule gives these: {:?}", counts.strange());
}

#[test]
fn the_archive_is_held_to_the_second_program() {
    hold(&ARCHIVE, 7);
}

#[test]
fn the_ordinary_board_is_held_to_the_second_program() {
    hold(&ORDINARY, 8);
}

#[test]
fn a_faulty_reply_is_found() {
    must_be_found(
        "counts refused picks as steps",
        Board {
            run_picks: |memory, images, drives, table, commands, picks| {
                let ran = (ORDINARY.run_picks)(memory, images, drives, table, commands, picks);
                Ran { steps: ran.steps + ran.refused, ..ran }
            },
            ..ORDINARY
        },
    );
    must_be_found(
        "takes picks of one place that follow each other for one",
        Board {
            run_picks: |memory, images, drives, table, commands, picks| {
                let mut once = picks.to_vec();
                once.dedup();
                let ran = (ORDINARY.run_picks)(memory, images, drives, table, commands, &once);
                let more = (picks.len() - once.len()) as u64;
                Ran { refused: ran.refused + if ran.number == 0 { more } else { 0 }, ..ran }
            },
            ..ORDINARY
        },
    );
    must_be_found(
        "takes 32 bits of the number of commands",
        Board {
            pick: |memory, images, drives, table, commands, place| {
                let commands = commands as u32 as usize;
                (ORDINARY.pick)(memory, images, drives, table, commands, place)
            },
            ..ORDINARY
        },
    );
    must_be_found(
        "gives the unit's low two bits",
        Board {
            view: |memory, at| {
                let mut fields = (ORDINARY.view)(memory, at);
                fields.unit &= 3;
                fields
            },
            ..ORDINARY
        },
    );
}

/// A last head taken for one like the others, in one thing alone.
#[test]
fn a_last_head_taken_for_another_is_found() {
    fn equal(drive: Drive) -> Drive {
        Drive { last_sector: drive.sector, ..drive }
    }
    must_be_found(
        "tests a sector of the last head against the other maximum",
        Board {
            walk: |memory, images, drives, start, table| {
                let walked = (ORDINARY.walk)(memory, images, drives, start, table);
                for record in &mut table[..walked.commands] {
                    let sector = (ORDINARY.view)(memory, record.iopb).sector;
                    let drive = drives.units[usize::from(record.unit % 4)];
                    if record.code == 0x12 && sector <= drive.sector {
                        record.code = 0;
                    }
                }
                walked
            },
            ..ORDINARY
        },
    );
    must_be_found(
        "gives the place that equal heads would have",
        Board { place: |drive, sector| (ORDINARY.place)(equal(drive), sector), ..ORDINARY },
    );
    must_be_found(
        "looks at a drive whose last head is longer than the others",
        Board {
            look_number: |images, drives, unit, sector| {
                let number = (ORDINARY.look_number)(images, drives, unit, sector);
                let longer = drives.units.iter().any(|drive| drive.last_sector > drive.sector);
                if number == 1 && longer && sector == 0 {
                    return 0;
                }
                number
            },
            ..ORDINARY
        },
    );
}

#[test]
fn a_faulty_place_is_found() {
    must_be_found(
        "gives the last place for a number past it",
        Board {
            place: |drive, sector| {
                let placed = (ORDINARY.place)(drive, sector);
                let Drive { cylinder, head, last_sector, .. } = drive;
                let last = Place { cylinder, head, sector: last_sector };
                let place = if placed.number == 10 { last } else { placed.place };
                Placed { place, ..placed }
            },
            ..ORDINARY
        },
    );
    must_be_found(
        "asks for the number before it asks for the last head",
        Board {
            place: |drive, sector| {
                let Placed { place, number } = (ORDINARY.place)(drive, sector);
                let past = sector == u32::MAX && number == 1;
                Placed { place, number: if past { 10 } else { number } }
            },
            ..ORDINARY
        },
    );
}

#[test]
fn a_fault_that_leaves_the_reply_right_is_found() {
    must_be_found(
        "clears the record past the last command",
        Board {
            walk: |memory, images, drives, start, table| {
                let walked = (ORDINARY.walk)(memory, images, drives, start, table);
                if let Some(record) = table.get_mut(walked.commands) {
                    record.iopb = 0;
                }
                walked
            },
            ..ORDINARY
        },
    );
    must_be_found(
        "posts a status on a refusal",
        Board {
            pick: |memory, images, drives, table, commands, place| {
                let number = (ORDINARY.pick)(memory, images, drives, table, commands, place);
                if number == 6 {
                    memory[table[place].iopb as usize + 3] ^= 1;
                }
                number
            },
            ..ORDINARY
        },
    );
}

#[test]
fn a_changed_byte_far_from_the_chain_is_found() {
    must_be_found(
        "changes the last byte of an image in a run",
        Board {
            run_written: |memory, images, drives, table, commands, budget| {
                let ran = (ORDINARY.run_written)(memory, images, drives, table, commands, budget);
                if let Some(last) = images[0].last_mut().filter(|_| ran.steps > 0) {
                    *last ^= 1;
                }
                ran
            },
            ..ORDINARY
        },
    );
    must_be_found(
        "changes what is lent for an absent unit in a run",
        Board {
            run_written: |memory, images, drives, table, commands, budget| {
                let ran = (ORDINARY.run_written)(memory, images, drives, table, commands, budget);
                for (image, drive) in images.iter_mut().zip(drives.units) {
                    if let Some(first) = image.first_mut().filter(|_| !drive.present) {
                        *first ^= 1;
                    }
                }
                ran
            },
            ..ORDINARY
        },
    );
}
