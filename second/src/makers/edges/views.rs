//! The fields of an IOPB as the viewer gives them, bit by bit, byte by byte,
//! and at the edges of memory.

use crate::makers::script::Script;
use crate::makers::ALL_32_BITS;
use crate::trial::line::Line;

/// All the cases of this file.
pub fn all(script: &mut Script) {
    // Thirty bytes, each unlike the others.
    script.case();
    script.say(Line::Memory { length: 65, a: 0, b: 0 });
    let bytes: Vec<u8> = (0..30).map(|k| 0xF1 - 7 * k).collect();
    script.say_all([
        Line::Put { address: 33, bytes: bytes.clone() },
        Line::Put { address: 2, bytes },
    ]);
    for address in [0, 1, 2, 3, 32, 33, 34, 35, 36, 64, 65, ALL_32_BITS - 29, ALL_32_BITS] {
        script.say_all([Line::Fields(address), Line::View(address)]);
    }
    // Each bit of the bytes that hold bits, alone.
    for at in [0x00, 0x02, 0x05] {
        script.case();
        script.say(Line::Memory { length: 30, a: 0, b: 0 });
        for bit in 0..8 {
            script.say(Line::Put { address: at, bytes: vec![1 << bit] });
            script.say_all([Line::Fields(0), Line::View(0)]);
        }
    }
    // Each byte alone, full.
    script.case();
    script.say(Line::Memory { length: 60, a: 0, b: 0 });
    for at in 0..30 {
        script.say_all([Line::Put { address: 30 + at, bytes: vec![0xFF] }, Line::View(30)]);
        script.say(Line::Put { address: 30 + at, bytes: vec![0] });
    }
    // A viewer does not ask for the size of memory or image.
    script.case();
    script.say(Line::Memory { length: 66_560, a: 1, b: 3 });
    script.say_all([65_536, 66_530, 66_531, 66_532].map(Line::View));
    script.say_all([65_537, 66_530, 66_531].map(Line::Fields));
}
