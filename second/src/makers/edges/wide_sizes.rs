//! Number 1 for drives far larger than the lent image, where 16, 24 or 32 bits
//! of the number of sectors, or of the number of bytes, would leave exactly the
//! image; and beside each the drive that has the image's size.

use crate::drive::Drive;
use crate::makers::block::Block;
use crate::makers::edges::last_head::short;
use crate::makers::edges::wide_ends::FEW_HEADS;
use crate::makers::edges::wide_places::LARGEST;
use crate::makers::edges::{image, memory, READ, WRITE};
use crate::makers::script::Script;
use crate::makers::wide_drives::{drive_of, lost_with_bytes};
use crate::makers::ALL_32_BITS;
use crate::record::Record;
use crate::trial::line::Line;

/// The drive of the bench, and two others of 32 sectors.
const OF_32: [Drive; 3] = [short(1, 1, 7, 7), short(0, 3, 9, 1), short(0, 0, 31, 31)];
/// Two drives of 2 sectors.
const OF_2: [Drive; 2] = [short(1, 0, 0, 0), short(0, 0, 7, 1)];

/// A drive that the image is right for, and one that it is not.
const PAIRS: [(Drive, Drive); 16] = [
    // 160 sectors: 16 bits of the bytes leave those of 32.
    (OF_32[0], short(4, 1, 15, 15)),
    (OF_32[1], short(0, 2, 63, 31)),
    // 32,800 sectors: 24 bits of the bytes do.
    (OF_32[0], short(1_024, 1, 15, 15)),
    (OF_32[1], short(0, 128, 255, 31)),
    // 65,568 sectors: 16 bits of the number leave 32.
    (OF_32[0], short(2_048, 1, 15, 15)),
    (OF_32[1], short(1, 128, 255, 15)),
    (OF_32[2], short(682, 2, 31, 31)),
    // 8,388,640 sectors: 32 bits of the bytes leave those of 32.
    (OF_32[0], short(52_428, 9, 15, 15)),
    (OF_32[1], short(52_428, 3, 49, 9)),
    (OF_32[2], short(52_428, 4, 31, 31)),
    // 130, 32,770, 65,538 and 8,388,610 sectors, where there are 2.
    (OF_2[0], short(0, 1, 127, 1)),
    (OF_2[1], short(0, 128, 255, 1)),
    (OF_2[0], short(1, 128, 255, 0)),
    (OF_2[1], short(3_969, 16, 131, 0)),
    // 65,535 x 65,535 sectors: 16 bits leave 1.
    (short(0, 0, 0, 0), short(65_534, 255, 255, 254)),
    (short(0, 0, 9, 0), short(65_534, 255, 255, 254)),
];

/// Drives of which some bits of the number of sectors or bytes leave nothing.
const NOTHING_LEFT: [Drive; 12] = [
    // 128 sectors, then 32,768, then 65,536.
    short(0, 0, 127, 127),
    short(7, 3, 3, 3),
    short(127, 0, 255, 255),
    short(65_535, 0, 0, 0),
    short(255, 255, 0, 0),
    short(0, 255, 255, 255),
    // 2 to the 23, 24, 31, and 65,536 fewer than 2 to the 32 in two ways.
    short(127, 255, 255, 255),
    short(65_535, 0, 255, 255),
    short(32_767, 255, 255, 255),
    short(65_535, 255, 255, 254),
    short(65_534, 255, 255, 255),
    LARGEST,
];

/// All the cases of this file.
pub fn all(script: &mut Script) {
    for (right, wrong) in PAIRS {
        tempted(script, right, wrong);
    }
    every_bit(script);
    for drive in NOTHING_LEFT {
        with_image(script, drive, 0);
    }
    for sectors in [1, 32] {
        with_image(script, LARGEST, sectors);
    }
    largest_image(script);
}

/// A read and a write of the first sector, linked.
fn two_commands(script: &mut Script) {
    script.block(0, Block::new(READ).count(1).data(0x400).next(32));
    script.block(32, Block::new(WRITE).count(1).data(0x600));
}

/// Every call that asks for sizes, those on the table first: a refused walk
/// leaves no commands. The looks are at the first sectors and far past them.
fn every_call(script: &mut Script) {
    script.say_all([Line::Pick(1), Line::LentPick(1), Line::Picks(vec![1, 0]), Line::Written(1)]);
    script.say_all([
        Line::look_0(0),
        Line::look_0(1),
        Line::look_0(100),
        Line::look_0(ALL_32_BITS),
    ]);
    script.say_all([Line::LentWalk(0), Line::Walk(0), Line::Steps]);
}

/// Calls on the right drive, then on one that its image is not right for, and
/// then on the right one again, as if nothing had been.
fn tempted(script: &mut Script, right: Drive, wrong: Drive) {
    script.case();
    script.say(Line::Drive(right));
    script.say_all([memory(2_048), image(right.number_of_sectors())]);
    two_commands(script);
    script.say_all([Line::Walk(0), Line::Pick(0), Line::look_0(0), Line::Drive(wrong)]);
    every_call(script);
    script.say_all([Line::Commands(2), Line::Drive(right)]);
    every_call(script);
    script.say_all([Line::Written(u64::MAX), Line::look_0(0)]);
}

/// For every number of bits up to the last one that a drive can lose: a drive
/// whose bytes leave those of some small drive. Most leave 32 sectors; where no
/// drive has so many more, it is the next number that works.
fn every_bit(script: &mut Script) {
    for bits in 16..=40 {
        let pair = |sectors: u64| drive_of(sectors).zip(drive_of(sectors + lost_with_bytes(bits)));
        let (right, wrong) = (32..128).find_map(pair).expect("some drive has so many sectors");
        tempted(script, right, wrong);
    }
}

/// A drive whose image is wrong, and a table made by hand.
fn with_image(script: &mut Script, drive: Drive, sectors: u64) {
    script.case();
    script.say(Line::Drive(drive));
    script.say_all([memory(2_048), image(sectors)]);
    two_commands(script);
    let record = Record { count: 1, byte0: READ, data: 0x400, ..Record::default() };
    script.record(0, record);
    script.record(1, Record { iopb: 32, byte0: WRITE, data: 0x600, ..record });
    script.say(Line::Commands(2));
    every_call(script);
}

/// The largest image, with the drive that has its size; with one whose number
/// of sectors leaves it in 16 bits, and one whose bytes do in 32.
fn largest_image(script: &mut Script) {
    script.case();
    script.say(Line::Drive(FEW_HEADS));
    script.say_all([memory(64), image(32_768), Line::look_0(32_767), Line::look_0(32_768)]);
    for wrong in [short(2, 127, 255, 255), short(256, 127, 255, 255)] {
        script.say(Line::Drive(wrong));
        script.say_all([Line::look_0(32_767), Line::look_0(32_768), Line::Walk(0)]);
    }
    script.say_all([Line::Drive(FEW_HEADS), Line::look_0(0), Line::Walk(0)]);
}
