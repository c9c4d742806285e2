//! The shortcuts that document 01 rules out. A board that takes one of them
//! answers the case of that shortcut otherwise.

use crate::makers::block::Block;
use crate::makers::edges::{image, memory, six_steps, READ, WRITE};
use crate::makers::script::Script;
use crate::trial::line::Line;

/// All the cases of this file.
pub fn all(script: &mut Script) {
    first_sector_only(script);
    status_from_memory(script);
    status_too_early(script);
    head_to_cylinder(script);
    own_iopb(script);
}

/// A conflict in the last sector only, and one in the last byte only.
fn first_sector_only(script: &mut Script) {
    script.bench_case();
    script.block(0x00, Block::new(WRITE).at(0, 0, 2).count(3).data(0x400).next(0x20));
    script.block(0x20, Block::new(READ).at(0, 0, 4).count(1).data(0xC00).next(0x40));
    script.block(0x40, Block::new(READ).at(1, 0, 0).count(3).data(0x9FF));
    script.say(Line::Walk(0));
    script.picks(&[1, 2, 0, 1, 2, 0, 1, 2, 0, 1, 2, 2, 2]);
}

/// Data of the first command comes to lie over byte 0 of the second.
fn status_from_memory(script: &mut Script) {
    script.bench_case();
    script.block(0x00, Block::new(READ).at(0, 1, 7).count(1).data(0x200).next(0x210));
    script.block(0x210, Block::new(0).byte(0, 0x8F).next(0x600));
    script.block(0x600, Block::new(READ).at(1, 1, 6).count(1).data(0));
    script.say_all([Line::Walk(0), Line::Pick(1), Line::Pick(2), Line::Pick(0)]);
    script.say_all([Line::Fields(0x210), Line::Pick(1), Line::Fields(0x210)]);
    script.say_all([Line::Written(9), Line::Fields(0)]);
}

/// No status before the last step.
fn status_too_early(script: &mut Script) {
    six_steps(script);
    for _ in 0..3 {
        script.say_all([Line::Pick(1), Line::Fields(0x20)]);
    }
}

/// From the last sector of a head to the next head, and only then on to the
/// next cylinder.
fn head_to_cylinder(script: &mut Script) {
    script.case();
    script.drive(2, 2, 1, false);
    script.say_all([memory(8_192), image(18)]);
    script.block(0, Block::new(READ).at(0, 0, 1).count(12).data(0x200).next(32));
    script.block(32, Block::new(WRITE).at(1, 1, 1).count(4).data(0x1800));
    script.say_all([Line::Walk(0), Line::Written(3), Line::Written(4), Line::Written(99)]);
    script.say_all([8, 9, 10, 11, 12, 13].map(Line::look_0));
}

/// Data over the command's own IOPB: the status is written last.
fn own_iopb(script: &mut Script) {
    for command in [READ, WRITE] {
        script.bench_case();
        script.block(0x300, Block::new(command).at(0, 1, 0).count(2).data(0x200));
        script.say_all([Line::Walk(0x300), Line::Pick(0), Line::Fields(0x300), Line::Pick(0)]);
        script.say_all([Line::Fields(0x300), Line::look_0(8), Line::look_0(9)]);
    }
}
