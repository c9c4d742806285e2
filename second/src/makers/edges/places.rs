//! The place of a sector's number: every number of small drives, the ends of
//! the largest ones, and the numbers that a drive has not.

use crate::drive::Drive;
use crate::makers::edges::last_head::{short, PACK};
use crate::makers::edges::{image, memory};
use crate::makers::script::Script;
use crate::makers::ALL_32_BITS;
use crate::trial::line::Line;

/// All the cases of this file.
pub fn all(script: &mut Script) {
    at_the_start(script);
    small_drives(script);
    largest_drives(script);
    last_above(script);
    no_image_asked_for(script);
}

/// A case starts with a drive of one sector.
fn at_the_start(script: &mut Script) {
    script.case();
    script.say_all([0, 1, ALL_32_BITS].map(Line::Place));
}

/// Every number, one past the last and two; and what equal heads would have.
fn small_drives(script: &mut Script) {
    for drive in [
        PACK,
        PACK.as_if_equal(),
        short(2, 1, 3, 1),
        short(1, 1, 3, 0),
        short(3, 0, 5, 2),
        short(3, 0, 2, 2),
        short(2, 0, 5, 0),
        short(0, 3, 2, 0),
        short(2, 2, 0, 0),
        short(0, 0, 7, 6),
    ] {
        script.case();
        script.say(Line::Drive(drive));
        let sectors = drive.number_of_sectors();
        let equal = drive.as_if_equal().number_of_sectors();
        script.say_all((0..=sectors + 1).map(Line::Place));
        script.say_all([equal - 1, equal, ALL_32_BITS].map(Line::Place));
    }
}

/// Drives at their largest in one way or in all: the first and the last
/// number, both sides of the first ends of heads and cylinders and of the
/// last, and the largest number that a line can name.
fn largest_drives(script: &mut Script) {
    for drive in [
        short(65_535, 255, 255, 255),
        short(65_535, 255, 255, 254),
        short(65_535, 255, 255, 0),
        short(65_535, 255, 0, 0),
        short(65_535, 0, 255, 255),
        short(65_535, 0, 255, 0),
        short(65_535, 0, 0, 0),
        short(0, 255, 255, 0),
        short(0, 255, 255, 255),
        short(0, 0, 255, 255),
    ] {
        script.case();
        script.say(Line::Drive(drive));
        script.say_all([0, 1, 254, 255, 256, 65_535, 65_536, 16_777_216].map(Line::Place));
        for end in ends(&drive) {
            let within = |number: u64| number.min(ALL_32_BITS);
            script.say_all([end.saturating_sub(1), within(end), within(end + 1)].map(Line::Place));
        }
        script.say_all([ALL_32_BITS - 1, ALL_32_BITS].map(Line::Place));
    }
}

/// The numbers just past the first full head, the first cylinder, the last
/// cylinder but one, the last full head, and the drive.
pub fn ends(drive: &Drive) -> [u64; 5] {
    let cylinder = u64::from(drive.max_cylinder);
    let last_head = u64::from(drive.max_head);
    [
        drive.sectors_of(0),
        drive.sectors_per_cylinder(),
        drive.sector_number(cylinder, 0, 0),
        drive.sector_number(cylinder, last_head, 0),
        drive.number_of_sectors(),
    ]
}

/// A last maximum above the other: 1 for every number, also before 10.
fn last_above(script: &mut Script) {
    for drive in [
        short(1, 2, 4, 5),
        short(0, 0, 0, 1),
        short(3, 0, 2, 255),
        short(1, 1, 254, 255),
        short(65_535, 255, 254, 255),
    ] {
        script.case();
        script.say(Line::Drive(drive));
        let sectors = drive.number_of_sectors();
        let numbers = [0, 1, sectors - 1, sectors, sectors + 1, ALL_32_BITS];
        script.say_all(numbers.map(|number| Line::Place(number.min(ALL_32_BITS))));
    }
}

/// Neither image nor memory nor protection has a say, nor does a place that
/// was asked for change anything.
fn no_image_asked_for(script: &mut Script) {
    for (sectors, memory_bytes, protected) in
        [(24, 64, false), (24, 64, true), (23, 64, false), (30, 66_560, false), (0, 0, true)]
    {
        script.case();
        script.say(Line::Drive(Drive { protected, ..PACK }));
        script.say_all([memory(memory_bytes), image(sectors)]);
        script.say_all([9, 10, 11, 12, 23, 24].map(Line::Place));
        script.say_all([Line::look_0(12), Line::Pick(0), Line::Walk(0), Line::Place(12)]);
    }
}
