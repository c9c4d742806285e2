//! Random calls and changes about several drives: looks at every unit, records
//! of another unit, drives that are taken away, marked, swapped or made wrong,
//! and mostly put back.

use crate::board::UNITS;
use crate::drive::Drive;
use crate::makers::calls::{call_on_table, calls_on_sizes};
use crate::makers::chain::Chain;
use crate::makers::ground::small_drive;
use crate::makers::rng::Rng;
use crate::makers::script::Script;
use crate::makers::spoil::some_calls;
use crate::makers::unit_cases::{fill, lend_anything, some_unit};
use crate::makers::ALL_32_BITS;
use crate::trial::line::Line;

/// The field of a record that names its unit.
const UNIT_FIELD: u64 = 9;

/// One thing that a caller may do with several drives; the chosen unit is the
/// one that changes.
pub fn unit_act(rng: &mut Rng, script: &mut Script, chain: &Chain) {
    match rng.below(20) {
        0..=3 => looks(rng, script),
        4..=6 => some_calls(rng, script),
        7..=9 => spoil_unit(rng, script),
        10..=12 => come_and_go(rng, script),
        13 | 14 => mark(rng, script),
        15 => lend_other(rng, script),
        16 | 17 => wrong_size(rng, script),
        18 => name_another_unit(rng, script, chain),
        _ => swap_drive(rng, script),
    }
}

/// Looks at units of any number, and at one sector of all four.
fn looks(rng: &mut Rng, script: &mut Script) {
    for _ in 0..rng.between(1, 4) {
        let unit = match rng.below(8) {
            0 => rng.between(UNITS, 7),
            1 => rng.one_of(&[8, 9, 11, 128, 254, 255]),
            _ => rng.below(UNITS),
        };
        let sectors = script.state.board.drive_of(unit).number_of_sectors();
        let sector = match rng.below(8) {
            0 => sectors,
            1 => sectors - 1,
            2 => rng.one_of(&[sectors + 1, 60, ALL_32_BITS]).min(ALL_32_BITS),
            3 => rng.below(12),
            _ => rng.below(sectors),
        };
        script.say(Line::Look { unit, sector });
    }
}

/// One record gets another unit; calls, and mostly its own again.
fn spoil_unit(rng: &mut Rng, script: &mut Script) {
    let records = script.state.commands.clamp(1, 32);
    let place = rng.below(records);
    let right = script.state.table[place as usize].unit;
    let other = match rng.below(8) {
        0 => u64::from(rng.byte()),
        1 => rng.one_of(&[4, 7, 8, 255]),
        2 => (u64::from(right) + 4 * rng.between(1, 63)) % 256,
        3..=5 => some_unit(rng, &script.state.board, 100, 0),
        _ => rng.below(UNITS),
    };
    script.spoil(place, UNIT_FIELD, other);
    some_calls(rng, script);
    if rng.percent(75) {
        script.spoil(place, UNIT_FIELD, u64::from(right));
    }
}

/// The chosen unit goes, or comes back; calls, and mostly as it was.
fn come_and_go(rng: &mut Rng, script: &mut Script) {
    let unit = script.state.chosen as u64;
    let there = script.state.unit().there;
    script.say(Line::There(!there));
    some_calls(rng, script);
    script.say(Line::Look { unit, sector: rng.below(8) });
    // A unit that came with a wrong image would refuse every call from here on.
    if rng.percent(75) || !script.state.board.images_right() {
        script.say_all([Line::Unit(unit), Line::There(there)]);
    }
}

/// The chosen unit's mark changes, there or not.
fn mark(rng: &mut Rng, script: &mut Script) {
    let right = *script.state.drive();
    script.say(Line::Drive(Drive { protected: !right.protected, ..right }));
    some_calls(rng, script);
    if rng.percent(75) {
        script.say(Line::Drive(right));
    }
}

/// Something else is lent for an absent unit: nothing may come of it.
fn lend_other(rng: &mut Rng, script: &mut Script) {
    let absent: Vec<u64> =
        (0..UNITS).filter(|unit| script.state.board.unit(*unit).is_none()).collect();
    if !absent.is_empty() {
        script.say(Line::Unit(rng.one_of(&absent)));
        lend_anything(rng, script);
    }
    some_calls(rng, script);
}

/// The chosen unit's image or last head is wrong; calls, and then it is right
/// again, there or not.
fn wrong_size(rng: &mut Rng, script: &mut Script) {
    let (right, there) = (*script.state.drive(), script.state.unit().there);
    if rng.percent(40) {
        // 2 + 4 sectors a cylinder, more on the last head than on the other.
        let above = Drive { last_head_max_sector: 3, ..Drive::with_equal_heads(0, 1, 1) };
        fill(rng, script, Drive { protected: right.protected, ..above });
    } else {
        let length = (script.state.unit().image.len() as u64).min(65_536);
        let length = rng.one_of(&[length + 1, length + 512, length.saturating_sub(1)]);
        script.say(Line::Image { length, a: rng.byte(), b: rng.byte(), c: rng.byte() });
    }
    calls_on_sizes(rng, script);
    let unit = rng.below(UNITS + 1);
    script.say(Line::Look { unit, sector: rng.below(8) });
    if there {
        let drive = if right.number_of_sectors() > 1_000 { small_drive(rng) } else { right };
        fill(rng, script, drive);
    }
}

/// An IOPB names another unit after the walk: that has no say.
fn name_another_unit(rng: &mut Rng, script: &mut Script, chain: &Chain) {
    if !chain.blocks.is_empty() {
        let at = rng.below(chain.blocks.len() as u64) as usize;
        script.put(chain.blocks[at].0 + 5, &[rng.byte()]);
    }
    call_on_table(rng, script);
}

/// The chosen unit gets another drive, with its image.
fn swap_drive(rng: &mut Rng, script: &mut Script) {
    let drive = small_drive(rng);
    fill(rng, script, drive);
    some_calls(rng, script);
}
