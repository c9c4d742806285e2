//! Sizes at their limits and just past them: memory, image, drive and the
//! lent table.

use crate::makers::block::Block;
use crate::makers::edges::{image, memory, six_steps, READ, WRITE};
use crate::makers::lines::chain_of;
use crate::makers::script::Script;
use crate::makers::ALL_32_BITS;
use crate::trial::line::Line;

/// All the cases of this file.
pub fn all(script: &mut Script) {
    memory_limits(script);
    small_images(script);
    largest_images(script);
    past_largest_images(script);
    too_large_drives(script);
    lent_lengths(script);
}

/// Memory at 65,536 and past it, with an IOPB at the very end.
fn memory_limits(script: &mut Script) {
    for length in [65_535, 65_536, 65_537, 66_560] {
        script.case();
        script.drive(1, 1, 7, false);
        script.say_all([memory(length), image(32)]);
        script.block(65_504, Block::new(READ).count(1).data(65_024));
        every_call(script, 65_504);
        script.say_all([Line::Walk(65_506), Line::Walk(65_508), Line::View(65_508)]);
    }
    // The whole memory as data, over the command's own IOPB.
    for (count, data) in [(128, 0), (128, 1), (127, 512), (127, 513), (129, 0)] {
        script.case();
        script.drive(0, 0, 255, false);
        script.say_all([memory(65_536), image(256)]);
        script.block(65_506, Block::new(READ).at(0, 0, 9).count(count).data(data));
        script.say_all([Line::Walk(65_506), Line::Pick(0), Line::Written(126)]);
        script.say_all([Line::Written(200), Line::Fields(65_506), Line::look_0(136)]);
    }
    // One byte short of an IOPB, and just one.
    for length in [29, 30, 31] {
        script.case();
        script.drive(0, 0, 0, false);
        script.say_all([Line::Memory { length, a: 0, b: 0 }, image(1), Line::Walk(0)]);
        script.say_all([
            Line::Walk(2),
            Line::View(0),
            Line::View(1),
            Line::View(2),
            Line::Fields(1),
        ]);
    }
}

/// Images of one sector, and of wrong sizes around it.
fn small_images(script: &mut Script) {
    for length in [0, 1, 511, 512, 513, 1_024] {
        script.case();
        script.drive(0, 0, 0, false);
        script.say(memory(600));
        script.say(Line::Image { length, a: 1, b: 2, c: 3 });
        script.block(0, Block::new(READ).count(1).data(88));
        every_call(script, 0);
        script.say(Line::look_0(1));
    }
}

/// The largest image, with drives that have its size.
fn largest_images(script: &mut Script) {
    for (cylinder, head, sector) in [(255, 7, 15), (127, 255, 0), (0, 127, 255), (32_767, 0, 0)] {
        script.case();
        script.drive(cylinder, head, sector, false);
        script.say_all([memory(2_048), image(32_768)]);
        let last = (u64::from(cylinder), u64::from(head), u64::from(sector));
        let (cylinder, head, sector) = last;
        let whole = Block::new(READ).count(32_768).data(0);
        script.block(0, Block::new(WRITE).at(cylinder, head, sector).count(1).data(512).next(32));
        script.block(32, whole.next(64));
        script.block(64, whole.count(32_769).next(96));
        script.block(96, whole.count(65_535).next(128));
        script.block(128, Block::new(READ).at(cylinder, head, sector).count(2));
        script.say_all([
            Line::Walk(0),
            Line::Written(9),
            Line::look_0(32_767),
            Line::look_0(32_768),
        ]);
        script.say_all([0, 32, 64, 96, 128].map(Line::Fields));
    }
}

/// The largest image with a drive of another size, and larger images with
/// drives that match and that do not.
fn past_largest_images(script: &mut Script) {
    for (drive, length) in [
        ((32_766, 0, 0), 16_777_216),
        ((330, 10, 8), 16_777_216),
        ((330, 10, 8), 16_777_728),
        ((255, 7, 15), 16_777_728),
        ((3_276, 9, 0), 16_778_240),
        ((255, 7, 15), 16_777_217),
    ] {
        script.case();
        script.drive(drive.0, drive.1, drive.2, false);
        script.say_all([memory(64), Line::Image { length, a: 5, b: 3, c: 11 }]);
        script.say_all([Line::Walk(0), Line::Pick(0), Line::look_0(0), Line::look_0(ALL_32_BITS)]);
        script.say_all([Line::Picks(vec![0]), Line::Written(1)]);
    }
}

/// Drives whose size in bytes is 0 again in 32 bits, or in 41.
fn too_large_drives(script: &mut Script) {
    for (cylinder, head, sector) in [(65_535, 255, 255), (32_767, 255, 0), (65_535, 127, 0)] {
        for sectors in [0, 1, 256] {
            script.case();
            script.drive(cylinder, head, sector, false);
            script.say_all([memory(600), image(sectors)]);
            every_call(script, 0);
            script.say_all([Line::look_0(255), Line::look_0(256), Line::look_0(ALL_32_BITS)]);
        }
    }
    script.case();
    script.drive(65_535, 255, 255, true);
    script.say_all([memory(600), image(32_768), Line::Walk(0), Line::look_0(32_767)]);
}

fn lent_lengths(script: &mut Script) {
    for lent in [0, 1, 31, 32, 33, 40] {
        six_steps(script);
        script.say_all([Line::Lent(lent), Line::LentPick(0), Line::LentPick(3), Line::LentPick(2)]);
        script.spoil(35, 0, 77);
        script.say_all([Line::LentWalk(0), Line::LentPick(1), Line::Written(u64::MAX)]);
        script.say_all([Line::LentWalk(1), Line::LentWalk(0xFE4), Line::LentPick(0)]);
    }
    script.bench_case();
    script.say(Line::Lent(40));
    chain_of(script, 33);
    script.say_all([Line::LentWalk(0), Line::LentPick(0)]);
}

/// Every call that tests sizes, and those that do not.
fn every_call(script: &mut Script, start: u64) {
    script.say_all([
        Line::Walk(start),
        Line::Pick(0),
        Line::Picks(vec![0, 1]),
        Line::Written(1),
        Line::LentWalk(start),
        Line::LentPick(0),
        Line::Steps,
        Line::look_0(0),
        Line::View(start),
    ]);
}
