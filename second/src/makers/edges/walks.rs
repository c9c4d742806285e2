//! Walks around 32 commands, over IOPBs that touch, and from addresses at the
//! edges of memory.

use crate::makers::block::Block;
use crate::makers::lines::chain_of;
use crate::makers::script::Script;
use crate::makers::ALL_32_BITS;
use crate::trial::line::Line;

/// All the cases of this file.
pub fn all(script: &mut Script) {
    lengths(script);
    starts(script);
}

/// Around 32 commands: what the 33rd is has no say, but an odd address does.
fn lengths(script: &mut Script) {
    for commands in [1, 2, 31, 32] {
        for last_next in
            [None, Some(0x7E1), Some(0), Some(2), Some(0x7E0), Some(0xFE4), Some(0xFFFF_FFFE)]
        {
            script.bench_case();
            chain_of(script, commands);
            if let Some(next) = last_next {
                script.block(32 * (commands - 1), Block::new(0).next(next));
            }
            script.say_all([Line::Walk(0), Line::Steps, Line::Written(31), Line::Pick(31)]);
            script.say_all([Line::Pick(32), Line::LentWalk(0)]);
        }
    }
    // IOPBs that touch and that share two bytes, before and after.
    for (second, taken_from) in [(30, 0), (28, 0), (32, 0), (70, 100), (72, 100), (100, 100)] {
        script.bench_case();
        script.block(second, Block::new(0));
        script.block(taken_from, Block::new(0).next(second));
        script.say_all([Line::Walk(taken_from), Line::Written(5)]);
    }
}

/// First addresses at the edges of memory and of 32 bits.
fn starts(script: &mut Script) {
    script.bench_case();
    script.say_all([0, 1, 2, 0xFE1, 0xFE2, 0xFE3, 0xFE4, 0xFFE, 0xFFF, 0x1000].map(Line::Walk));
    script.say_all([0xFFFF_FFE2, 0xFFFF_FFFE, ALL_32_BITS, 0x1_0000, 0x1_0001].map(Line::Walk));
    script.say_all([0xFE2, 0xFE4, 0xFFFF_FFE2, ALL_32_BITS].map(Line::LentWalk));
}
