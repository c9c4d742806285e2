//! Transfers over the ends of heads where the last head is shorter: onto the
//! last head, and from it onto the next cylinder.

use crate::drive::Drive;
use crate::makers::edges::last_head::{case_on, short, transfer, PACK, ROOM_FOR_THIRTY, SHAPES};
use crate::makers::edges::{READ, WRITE};
use crate::makers::script::Script;
use crate::trial::line::Line;

/// Head 0 has 4 sectors and head 1 has 2: 6 on each of three cylinders.
const THREE_CYLINDERS: Drive = short(2, 1, 3, 1);

/// All the cases of this file.
pub fn all(script: &mut Script) {
    transfers(script);
    step_by_step(script);
    conflicts_at_an_end(script);
    for drive in SHAPES {
        over_each_cylinder(script, drive);
    }
}

/// Transfers up to the end of a head and over it: from one head onto the last,
/// from the last onto the next cylinder, and over several cylinders. All
/// sectors are looked at, so that each change shows.
fn transfers(script: &mut Script) {
    for (drive, place, count) in [
        (THREE_CYLINDERS, (0, 1, 1), 1),
        (THREE_CYLINDERS, (0, 1, 1), 2),
        (THREE_CYLINDERS, (0, 1, 0), 3),
        (THREE_CYLINDERS, (0, 0, 3), 2),
        (THREE_CYLINDERS, (0, 0, 3), 4),
        (THREE_CYLINDERS, (0, 0, 0), 6),
        (THREE_CYLINDERS, (0, 0, 0), 7),
        (THREE_CYLINDERS, (1, 0, 3), 3),
        (THREE_CYLINDERS, (1, 1, 1), 2),
        (THREE_CYLINDERS, (0, 1, 1), 8),
        (THREE_CYLINDERS, (0, 0, 2), 14),
        (THREE_CYLINDERS, (0, 0, 0), 18),
        (PACK, (0, 0, 4), 2),
        (PACK, (0, 1, 4), 2),
        (PACK, (0, 1, 4), 4),
        (PACK, (0, 2, 1), 2),
        (PACK, (0, 0, 3), 21),
        // Equal heads, for comparison: the same places.
        (THREE_CYLINDERS.as_if_equal(), (0, 1, 1), 8),
        (PACK.as_if_equal(), (0, 1, 4), 8),
    ] {
        for command in [READ, WRITE] {
            case_on(script, drive, ROOM_FOR_THIRTY);
            script.block(0, transfer(place, count).command(command));
            script.say_all([Line::Walk(0), Line::Steps, Line::Written(1), Line::Written(1)]);
            script.say_all([Line::Written(u64::MAX), Line::Fields(0)]);
            script.say_all((0..=drive.number_of_sectors()).map(Line::look_0));
        }
    }
}

/// One step at a time over both ends, with looks in between.
fn step_by_step(script: &mut Script) {
    for command in [READ, WRITE] {
        case_on(script, THREE_CYLINDERS, 4_096);
        script.block(0, transfer((0, 0, 3), 4).command(command));
        script.say(Line::Walk(0));
        for _ in 0..5 {
            script.say(Line::Pick(0));
            script.say_all((2..=7).map(Line::look_0));
        }
    }
}

/// A write of sectors 5 and 6, over the end of the short head, and a read that
/// is named by its own place: beside it, or meeting it in one sector.
fn conflicts_at_an_end(script: &mut Script) {
    for (place, count) in [
        ((0, 1, 0), 1),
        ((0, 1, 1), 1),
        ((1, 0, 0), 1),
        ((1, 0, 1), 1),
        ((0, 0, 3), 2),
        ((0, 0, 3), 3),
        ((1, 0, 0), 4),
        ((1, 0, 1), 4),
    ] {
        case_on(script, THREE_CYLINDERS, 6_144);
        script.block(0, transfer((0, 1, 1), 2).command(WRITE).next(32));
        script.block(32, transfer(place, count).data(0x1000));
        script.say_all([Line::Walk(0), Line::Pick(1), Line::Pick(0), Line::Pick(1)]);
        script.picks(&[1, 0, 1, 1, 1]);
        script.say_all([Line::Written(u64::MAX), Line::Fields(32)]);
        script.say_all((4..=7).map(Line::look_0));
    }
}

/// A write of two sectors over the end of each cylinder, and a read of the
/// second by its own place.
fn over_each_cylinder(script: &mut Script, drive: Drive) {
    let (head, last) = (u64::from(drive.max_head), u64::from(drive.last_head_max_sector));
    for cylinder in 0..u64::from(drive.max_cylinder) {
        case_on(script, drive, 4_096);
        script.block(0, transfer((cylinder, head, last), 2).command(WRITE).next(32));
        script.block(32, transfer((cylinder + 1, 0, 0), 1).data(0xA00));
        script.say_all([Line::Walk(0), Line::Pick(1), Line::Written(u64::MAX)]);
        let end = drive.sector_number(cylinder + 1, 0, 0);
        script.say_all((end.saturating_sub(2)..=end + 1).map(Line::look_0));
    }
}
