//! Number 1 where the last head has a maximum of its own: images beside the
//! right size, and a maximum above that of the other heads with images of
//! every length that a board might take for right.

use crate::drive::Drive;
use crate::makers::block::Block;
use crate::makers::edges::last_head::{case_on, short, PACK};
use crate::makers::edges::{image, memory, READ, WRITE};
use crate::makers::script::Script;
use crate::makers::ALL_32_BITS;
use crate::record::Record;
use crate::trial::line::Line;

/// All the cases of this file.
pub fn all(script: &mut Script) {
    image_lengths(script);
    last_above(script);
    huge_drives(script);
    changed_in_between(script);
    largest_images(script);
}

/// Every call that takes the drive, those on the table first: a refused walk
/// leaves no commands. A budget and a list that would take steps, too.
fn every_call(script: &mut Script) {
    script.say_all([Line::Pick(0), Line::LentPick(0), Line::Picks(vec![0, 1]), Line::Written(1)]);
    script.say_all([
        Line::Steps,
        Line::look_0(0),
        Line::look_0(23),
        Line::Place(0),
        Line::Place(23),
    ]);
    script.say_all([Line::Walk(0), Line::LentWalk(0), Line::Pick(0), Line::Written(u64::MAX)]);
}

/// Two commands that are linked: a read and a write, each over an end.
fn two_commands(script: &mut Script) {
    script.block(0, Block::new(READ).at(0, 1, 4).count(2).data(0x400).next(32));
    script.block(32, Block::new(WRITE).at(0, 2, 1).count(2).data(0x800));
}

/// Images of the pack's size and beside it; of what equal heads would have by
/// one maximum or the other; of the heads before the last; and none.
fn image_lengths(script: &mut Script) {
    let right = 24 * 512;
    let beside = [right, right - 1, right + 1, right - 512, right + 512];
    let tempting = [30 * 512, 12 * 512, 20 * 512, 0];
    for length in beside.into_iter().chain(tempting) {
        case_on(script, PACK, 4_096);
        two_commands(script);
        script.say(Line::Walk(0));
        script.say(Line::Image { length, a: 5, b: 3, c: 11 });
        every_call(script);
        script.say(Line::look_0(ALL_32_BITS));
    }
}

/// A last maximum above the other, by one and by more; with one head, with two
/// and with three.
fn last_above(script: &mut Script) {
    for drive in [
        short(1, 2, 4, 5),
        short(1, 2, 4, 255),
        short(0, 0, 0, 1),
        short(3, 0, 2, 3),
        short(1, 1, 0, 1),
        short(1, 1, 1, 255),
        short(0, 0, 254, 255),
    ] {
        let by_others = drive.as_if_equal();
        let by_last = Drive { max_sector: drive.last_head_max_sector, ..drive };
        for sized_as in [drive, by_others, by_last] {
            above_with_image(script, drive, sized_as.number_of_sectors());
        }
        above_with_image(script, drive, 0);
        above_with_image(script, drive, 1);
    }
    // The largest image that there may be, and the drive has that size.
    above_with_image(script, short(127, 1, 126, 128), 32_768);
}

/// Every call on such a drive, with a table in use; then the last head is put
/// right, and the table goes on as if nothing had been.
fn above_with_image(script: &mut Script, drive: Drive, sectors: u64) {
    script.case();
    script.say(Line::Drive(drive));
    script.say_all([memory(2_048), image(sectors)]);
    script.block(0, Block::new(READ).count(1).data(0x400));
    let record = Record { count: 1, byte0: READ, data: 0x400, ..Record::default() };
    script.record(0, record);
    script.record(1, Record { iopb: 32, byte0: WRITE, data: 0x600, ..record });
    script.say(Line::Commands(2));
    every_call(script);
    script.say_all([Line::look_0(sectors), Line::Place(ALL_32_BITS)]);
    let mended = drive.as_if_equal();
    script.say_all([Line::Drive(mended), image(mended.number_of_sectors())]);
    script.say_all([Line::Walk(0), Line::Commands(2), Line::Written(u64::MAX)]);
    script.say_all([0, 1].map(Line::look_0));
}

/// Drives far too large for any image: with a last maximum above the other,
/// with a shorter last head, and of a size in bytes that is 0 in 32 bits.
fn huge_drives(script: &mut Script) {
    for drive in
        [short(65_535, 255, 0, 1), short(65_535, 255, 254, 255), short(65_535, 255, 255, 0)]
    {
        huge_with_images(script, drive);
    }
    huge_with_images(script, short(65_535, 1, 99, 27));
}

fn huge_with_images(script: &mut Script, drive: Drive) {
    for sectors in [0, 1, 256] {
        script.case();
        script.say(Line::Drive(drive));
        script.say_all([memory(600), image(sectors)]);
        every_call(script);
        script.say_all([255, 256, ALL_32_BITS].map(Line::look_0));
    }
}

/// The drive changes between two steps for one of the same size whose last
/// maximum is above the other, and back: nothing but the maximum is wrong.
fn changed_in_between(script: &mut Script) {
    for (right, wrong) in [
        (short(1, 1, 4, 1), short(1, 1, 1, 4)),
        (short(3, 0, 5, 2), short(3, 0, 1, 2)),
        (short(1, 2, 4, 1), short(1, 2, 2, 5)),
    ] {
        case_on(script, right, 4_096);
        script.block(0, Block::new(WRITE).count(4).data(0x400).next(32));
        script.block(32, Block::new(READ).at(1, 0, 1).count(1).data(0xC00));
        script.say_all([Line::Walk(0), Line::Pick(0), Line::Drive(wrong)]);
        script.say_all([Line::Pick(0), Line::Pick(1), Line::Pick(2), Line::LentPick(0)]);
        script.picks(&[1, 0, 0]);
        script.say_all([Line::Written(9), Line::look_0(0), Line::look_0(99), Line::Place(0)]);
        script.say_all([Line::Drive(right), Line::Pick(1), Line::Written(9)]);
        script.say_all((0..6).map(Line::look_0));
        script.say_all([Line::Drive(wrong), Line::LentWalk(0), Line::Walk(0), Line::Walk(1)]);
    }
}

/// The largest image on drives with a shorter last head: of its size, of one
/// sector more, and of one too many.
fn largest_images(script: &mut Script) {
    for (drive, sectors) in [
        (short(255, 7, 17, 1), 32_768),
        (short(255, 7, 17, 2), 32_768),
        (short(32_767, 0, 7, 0), 32_768),
        (short(330, 9, 9, 8), 32_769),
    ] {
        script.case();
        script.say(Line::Drive(drive));
        script.say_all([memory(2_048), image(sectors)]);
        let (cylinder, head) = (u64::from(drive.max_cylinder), u64::from(drive.max_head));
        let last = u64::from(drive.last_head_max_sector);
        let write = Block::new(WRITE).at(cylinder, head, last).count(1).data(0x200);
        script.block(0, write.next(32));
        script.block(32, write.count(2).next(64));
        script.block(64, write.at(cylinder, head, last + 1));
        script.say_all([Line::Walk(0), Line::Written(9)]);
        script.say_all([32_766, 32_767, 32_768].map(Line::look_0));
        script.say_all([32_767, 32_768].map(Line::Place));
        script.say_all([0, 32, 64].map(Line::Fields));
    }
}
