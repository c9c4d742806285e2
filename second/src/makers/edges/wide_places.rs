//! The places of numbers on drives at the edges of 16 and of 32 bits, up to the
//! largest drive there is. A product, a sum or a remainder that is cut off there
//! gives another place, or another number.

use crate::drive::Drive;
use crate::makers::edges::last_head::short;
use crate::makers::edges::places::ends;
use crate::makers::edges::{image, memory};
use crate::makers::script::Script;
use crate::makers::ALL_32_BITS;
use crate::trial::line::Line;
use std::collections::BTreeSet;

/// 65,536 cylinders of 256 heads of 256 sectors: exactly 2 to the 32 sectors.
pub const LARGEST: Drive = short(65_535, 255, 255, 255);

/// Drives just below it, by one cylinder, one head, one sector of each track or
/// one of the last head; then drives about 2 to the 31.
const ABOUT_32_BITS: [Drive; 17] = [
    short(65_535, 255, 255, 254),
    short(65_534, 255, 255, 255),
    short(65_534, 255, 255, 254),
    short(65_535, 254, 255, 255),
    short(65_535, 255, 254, 254),
    short(65_535, 255, 254, 253),
    short(65_535, 255, 255, 0),
    short(65_534, 254, 254, 254),
    short(65_533, 255, 255, 254),
    short(32_767, 255, 255, 255),
    short(32_767, 255, 255, 254),
    short(32_768, 255, 255, 255),
    short(32_768, 255, 255, 254),
    short(65_535, 127, 255, 255),
    short(65_535, 127, 255, 254),
    short(65_535, 128, 255, 0),
    short(65_535, 255, 127, 127),
];

/// Drives of about 2 to the 16 sectors on a cylinder or in all, and of about
/// half as many. No drive has 65,537: that is a prime, and too many for one
/// cylinder or for one sector on each.
const ABOUT_16_BITS: [Drive; 20] = [
    // 65,535 on a cylinder, 65,536, and two such cylinders.
    short(0, 255, 255, 254),
    short(0, 255, 255, 255),
    short(1, 255, 255, 254),
    short(1, 255, 255, 255),
    // 65,535 in all, in other ways.
    short(65_534, 0, 0, 0),
    short(256, 0, 254, 254),
    short(254, 1, 255, 0),
    // 65,536 in all, in other ways.
    short(65_535, 0, 0, 0),
    short(255, 0, 255, 255),
    short(15, 15, 255, 255),
    short(255, 255, 0, 0),
    short(1, 127, 255, 255),
    // 65,538, 65,540 and 65,792.
    short(1, 128, 255, 0),
    short(21_845, 2, 0, 0),
    short(10_922, 1, 3, 1),
    short(1, 128, 255, 1),
    short(256, 0, 255, 255),
    // 32,767, 32,768 and 32,769.
    short(0, 127, 255, 254),
    short(0, 127, 255, 255),
    short(0, 128, 255, 0),
];

/// Drives whose cylinders have no power of two for a number of sectors.
const UNEVEN: [Drive; 6] = [
    short(65_535, 254, 252, 17),
    short(65_535, 255, 255, 99),
    short(60_000, 199, 199, 3),
    short(65_000, 250, 250, 250),
    short(65_535, 255, 255, 254),
    short(65_535, 0, 255, 246),
];

/// All the cases of this file.
pub fn all(script: &mut Script) {
    largest(script);
    for drive in ABOUT_32_BITS.into_iter().chain(ABOUT_16_BITS) {
        at_its_ends(script, drive);
    }
    for drive in UNEVEN {
        in_the_middle(script, drive);
    }
    one_bit_more(script);
}

/// The largest drive, at both sides of every edge.
fn largest(script: &mut Script) {
    script.case();
    script.say(Line::Drive(LARGEST));
    let (half, whole) = (1 << 31, 1_u64 << 32);
    script.say_all([0, 1, 255, 256, 257, 65_535, 65_536, 65_537].map(Line::Place));
    script.say_all([half - 65_536, half - 1, half, half + 1, half + 65_536].map(Line::Place));
    script.say_all([65_537, 65_536, 65_535, 257, 256, 2, 1].map(|n| Line::Place(whole - n)));
}

/// Both sides of each end of a drive, of the powers of two that products might
/// be cut at, and the largest number that a line can name.
fn at_its_ends(script: &mut Script, drive: Drive) {
    let powers = [8, 16, 24, 31].map(|bits| 1_u64 << bits);
    let mut numbers = BTreeSet::from([0, ALL_32_BITS]);
    for edge in ends(&drive).into_iter().chain(powers) {
        numbers.extend([edge.saturating_sub(1), edge, edge + 1]);
    }
    script.case();
    script.say(Line::Drive(drive));
    let nameable = numbers.into_iter().filter(|number| *number <= ALL_32_BITS);
    script.say_all(nameable.map(Line::Place));
}

/// The first and the last sector of some heads of some cylinders, most of them
/// above 2 to the 31.
fn in_the_middle(script: &mut Script, drive: Drive) {
    let last_head = u64::from(drive.max_head);
    let heads = BTreeSet::from([0, last_head.min(1), last_head / 2, last_head]);
    script.case();
    script.say(Line::Drive(drive));
    for cylinder in [1, 255, 256, 32_767, 32_768, 43_690, 55_555, 60_000] {
        for head in &heads {
            let first = drive.sector_number(cylinder, *head, 0);
            let last = drive.sector_number(cylinder, *head, drive.max_sector_of(*head));
            script.say_all([first, last].map(Line::Place));
        }
    }
}

/// Numbers that would be on the drive if one high bit were lost, in places and
/// in looks; from 2 to the 23 on it would be a bit of the offset in the image.
fn one_bit_more(script: &mut Script) {
    script.case();
    script.drive(1, 1, 7, false);
    script.say_all([memory(64), image(32), Line::Place(3), Line::look_0(3)]);
    for bits in 5..32 {
        let number = 3 + (1 << bits);
        script.say_all([Line::Place(number), Line::look_0(number)]);
    }
    // On 65,535 sectors the sixteen low bits of a number are nearly all.
    script.case();
    script.say(Line::Drive(short(0, 255, 255, 254)));
    for bits in 16..32 {
        script.say_all([7, 65_534].map(|low| Line::Place(low + (1 << bits))));
    }
}
