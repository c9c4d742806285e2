//! The codes in their order, and each field of a command at its maximum and
//! past it.

use crate::makers::block::Block;
use crate::makers::edges::{image, memory, READ, WRITE};
use crate::makers::lines::walk_and_run;
use crate::makers::script::Script;
use crate::makers::ALL_32_BITS;
use crate::trial::line::Line;

/// All the cases of this file.
pub fn all(script: &mut Script) {
    code_order(script);
    data_edges(script);
    drive_edges(script);
}

/// The codes in their order: each block has a fault, then one more before it.
fn code_order(script: &mut Script) {
    script.case();
    script.bench_ground(true);
    let past = Block::new(WRITE).at(0, 0, 0).count(1).data(0xE01);
    let mut spoiled = vec![past, past.at(1, 1, 7).count(2), past.at(0, 0, 8), past.at(0, 2, 8)];
    spoiled.push(past.at(2, 2, 8));
    spoiled.push(past.at(2, 2, 8).count(0));
    spoiled.push(past.at(2, 2, 8).count(0).unit(1));
    spoiled.push(past.at(2, 2, 8).count(0).unit(4).subfunction(1));
    spoiled.push(past.at(2, 2, 8).count(0).unit(7).sgm());
    spoiled.push(past.at(2, 2, 8).count(0).unit(2).command(3));
    spoiled.push(past.command(READ));
    run_chain(script, &spoiled);

    script.bench_case();
    let quiet = Block::new(0).at(2, 2, 8).count(0).unit(7).data(ALL_32_BITS);
    let sound = Block::new(READ).at(0, 0, 1).count(1).data(0x800);
    let mut others = vec![quiet, quiet.sgm(), quiet.subfunction(0x80), quiet.next_address(1)];
    for unit in 0..8 {
        others.push(sound.unit(unit));
    }
    others.extend([sound.byte(5, 0xF8), sound.byte(5, 0x00), sound.byte(5, 0x04)]);
    others.extend([3, 4, 9, 15].map(|command| sound.command(command)));
    run_chain(script, &others);

    for block in [quiet, quiet.sgm(), sound, sound.unit(1), sound.count(0), sound.command(15)] {
        for next in [1, 0x21, 0xFFF, ALL_32_BITS] {
            script.bench_case();
            walk_and_run(script, block.next(next), 1);
        }
    }
}

/// Links blocks 32 bytes apart, walks and runs them, and shows each status.
pub fn run_chain(script: &mut Script, blocks: &[Block]) {
    for (k, block) in blocks.iter().enumerate() {
        let k = k as u64;
        let next = 32 * (k + 1);
        let last = next == 32 * blocks.len() as u64;
        script.block(32 * k, if last { *block } else { block.next(next) });
    }
    script.say_all([Line::Walk(0), Line::Steps, Line::Written(2), Line::Written(u64::MAX)]);
    script.say_all((0..blocks.len() as u64).map(|k| Line::Fields(32 * k)));
}

/// Data addresses at the end of memory and of 32 bits.
fn data_edges(script: &mut Script) {
    let read = Block::new(READ).at(0, 0, 2);
    for (count, data) in [
        (1, 0xE00),
        (1, 0xE01),
        (2, 0xC00),
        (2, 0xC01),
        (8, 0),
        (8, 1),
        (7, 0x200),
        (9, 0),
        (1, 0x1000),
        (1, 0xFFFF_FE00),
        (1, ALL_32_BITS),
        (2, 0xFFFF_FE00),
    ] {
        for command in [READ, WRITE] {
            script.bench_case();
            script.block(0x40, read.command(command).count(count).data(data));
            script.say_all([Line::Walk(0x40), Line::Steps, Line::Pick(0), Line::Fields(0x40)]);
            script.say_all([Line::Written(u64::MAX), Line::Fields(0x40), Line::look_0(9)]);
        }
    }
}

/// Drives other than the bench's, each field at its maximum and past it.
fn drive_edges(script: &mut Script) {
    for (cylinder, head, sector) in
        [(0, 0, 0), (2, 0, 3), (0, 3, 1), (4, 2, 0), (0, 255, 0), (0, 0, 255)]
    {
        script.case();
        script.drive(cylinder, head, sector, false);
        script.say(memory(2_048));
        let sectors = script.state.drive().number_of_sectors();
        script.say(image(sectors));
        let (c, h, s) = (u64::from(cylinder), u64::from(head), u64::from(sector));
        let read = Block::new(READ).count(1).data(0x400);
        let mut blocks = vec![read.at(c, h, s), read.at(c + 1, h, s), read.at(c, h, s).count(2)];
        blocks.push(read.at(0, 0, 0).count(sectors).data(0));
        blocks.push(read.at(0, 0, 0).count(sectors + 1).data(0));
        blocks.push(read.at(65_535, 255, 255));
        blocks.push(read.at(c, 255, 255));
        blocks.push(read.at(c, h, 255));
        run_chain(script, &blocks);
        script.say_all([Line::look_0(sectors - 1), Line::look_0(sectors)]);
    }
}
