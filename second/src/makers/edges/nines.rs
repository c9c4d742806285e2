//! Tables spoiled on both sides of every line of number 9, and the calls that
//! meet them.

use crate::makers::edges::{image, memory, six_steps};
use crate::makers::script::Script;
use crate::makers::ALL_32_BITS;
use crate::trial::line::Line;

/// A place, a field of its record, and a value of that field on one side of
/// its line or the other. Place 0 reads 2 sectors to 400H from sector 7, place
/// 1 writes 3 from 800H to sector 22, place 2 does nothing, place 3 is not in
/// use.
const SPOILED: [(u64, u64, u64); 46] = [
    (0, 0, 0xFE2),
    (0, 0, 0xFE3),
    (2, 0, 0xFE2),
    (2, 0, 0xFE3),
    (2, 0, 0x1000),
    (1, 0, 0xFFFF_FFE2),
    (2, 0, ALL_32_BITS),
    (0, 1, 0xC00),
    (0, 1, 0xC01),
    (1, 1, 0xA00),
    (1, 1, 0xA01),
    (0, 1, 0xFFFF_FC00),
    (2, 1, ALL_32_BITS),
    (0, 2, 30),
    (0, 2, 31),
    (1, 2, 29),
    (1, 2, 30),
    (0, 2, 0xFFFF_FFFE),
    (2, 2, ALL_32_BITS),
    (0, 3, 1),
    (0, 3, 2),
    (0, 3, 3),
    (1, 3, 3),
    (1, 3, 4),
    (2, 3, 1),
    (2, 3, 2),
    (2, 3, ALL_32_BITS),
    (0, 4, 0),
    (0, 4, 1),
    (0, 4, 6),
    (0, 4, 7),
    (1, 4, 4),
    (1, 4, 5),
    (1, 4, 0),
    (0, 4, 65_535),
    (2, 4, 65_535),
    (2, 5, 0x02),
    (2, 5, 0x01),
    (2, 5, 0x07),
    (0, 5, 0x21),
    (0, 5, 0x20),
    (0, 6, 0x13),
    (1, 6, 0x90),
    (2, 6, 0xFF),
    (3, 0, ALL_32_BITS),
    (3, 3, 9),
];

/// All the cases of this file.
pub fn all(script: &mut Script) {
    one_field(script);
    two_fields(script);
    protection(script);
    shrunk(script);
}

/// Each field of a record on both sides of its line.
fn one_field(script: &mut Script) {
    for (place, field, value) in SPOILED {
        six_steps(script);
        script.spoil(place, field, value);
        calls_on_spoiled(script);
    }
}

/// Calls on a spoiled table, those with no place first: 9 stands before 8.
pub fn calls_on_spoiled(script: &mut Script) {
    script.say_all([Line::Steps, Line::Pick(3), Line::LentPick(ALL_32_BITS), Line::Pick(2)]);
    script.picks(&[]);
    script.picks(&[1, 0, 1, 0, 7]);
    script.say_all([
        Line::Written(0),
        Line::LentPick(1),
        Line::Written(1),
        Line::Written(u64::MAX),
    ]);
}

/// Two fields of a record at once.
fn two_fields(script: &mut Script) {
    // A failed transfer has one step, wherever its fields point.
    for (taken, code) in [(1, 0x10), (2, 0x10), (1, 0x00), (2, 0x00), (0, 0x4B)] {
        six_steps(script);
        script.spoil(0, 6, code);
        script.spoil(0, 3, taken);
        script.spoil(0, 1, if code == 0 { 0x400 } else { ALL_32_BITS });
        calls_on_spoiled(script);
    }
    // A count of one after one step is finished; after two it is not sound.
    for taken in [1, 2] {
        six_steps(script);
        script.spoil(0, 4, 1);
        script.spoil(0, 3, taken);
        calls_on_spoiled(script);
    }
}

/// Protection found on after the walk: 9 while a write is in the table, even a
/// finished one, and not once its command is another.
fn protection(script: &mut Script) {
    for byte0 in [0x21, 0x22, 0x20, 0x27] {
        six_steps(script);
        script.drive(1, 1, 7, true);
        script.spoil(1, 5, byte0);
        calls_on_spoiled(script);
        script.drive(1, 1, 7, false);
        script.say(Line::Written(u64::MAX));
        script.drive(1, 1, 7, true);
        script.say_all([Line::Pick(0), Line::Written(1)]);
    }
}

/// Memory, then the drive with its image, smaller than at the walk: 25 sectors
/// hold all that the commands name, 24 do not.
fn shrunk(script: &mut Script) {
    for length in [94, 93, 0x800, 0x7FF, 0xE00, 0xDFF] {
        six_steps(script);
        script.say(memory(length));
        calls_on_spoiled(script);
    }
    for sectors in [25, 24, 9, 8] {
        six_steps(script);
        script.drive(sectors as u16 - 1, 0, 0, false);
        script.say(image(sectors));
        calls_on_spoiled(script);
    }
}
