//! Random spoiling of the ranges in a table, aimed at both sides of each line
//! of number 9 that asks for them, followed by calls and mostly by a repair.

use crate::makers::random_lists::address_past;
use crate::makers::rng::Rng;
use crate::makers::script::Script;
use crate::makers::spoil::some_calls;
use crate::range::Range;
use crate::record::Record;
use crate::trial::line::{field_of, Line, FIELD_MOST};

const RANGES_FIELD: u64 = 7;

/// A place in use whose record has a list, if there is one; mostly of a command
/// that moves something.
pub fn listed_place(rng: &mut Rng, script: &Script) -> Option<u64> {
    let in_use = script.state.commands.min(32);
    let record = |place: u64| &script.state.table[place as usize];
    let listed: Vec<u64> = (0..in_use).filter(|place| record(*place).has_list()).collect();
    let moving: Vec<u64> =
        listed.iter().copied().filter(|place| record(*place).is_transfer()).collect();
    let places = if moving.is_empty() || rng.once_in(10) { listed } else { moving };
    if places.is_empty() {
        return None;
    }
    Some(rng.one_of(&places))
}

/// Spoils the number of ranges of the record at a place, or one or two of the
/// ranges; calls, and in most cases puts it back.
pub fn spoil_ranges(rng: &mut Rng, script: &mut Script, place: u64) {
    let record = script.state.table[place as usize];
    let right = u64::from(record.ranges);
    if rng.percent(30) {
        script.spoil(place, RANGES_FIELD, wrong_number(rng, right));
    } else if right < 32 && rng.once_in(5) {
        claim_one_more(rng, script, place);
    } else {
        change_ranges(rng, script, place, &record);
    }
    some_calls(rng, script);
    if rng.percent(75) {
        mend(script, place, &record);
    }
}

/// Another number of ranges. Some of the larger ones would be right in 8 bits,
/// or in 15, or as a number with a sign.
fn wrong_number(rng: &mut Rng, right: u64) -> u64 {
    let few = [0, right - 1, right + 1, 32, 33];
    let many = [right + 256, right + 0x8000, 255, 257, 65_536 - right, 65_535];
    let number = if rng.percent(60) { rng.one_of(&few) } else { rng.one_of(&many) };
    // what is spoiled already may be the largest number that there is
    number.min(FIELD_MOST[RANGES_FIELD as usize])
}

/// One range more, of length 0, at the end of memory or just past it.
fn claim_one_more(rng: &mut Rng, script: &mut Script, place: u64) {
    let record = script.state.table[place as usize];
    let memory = script.state.board.memory_bytes() as u32;
    let address = rng.one_of(&[0, memory.saturating_sub(1), memory, memory + 1, 0xFFFF_FFFF]);
    say(script, place, u64::from(record.ranges), Range { address, length: 0 });
    script.spoil(place, RANGES_FIELD, u64::from(record.ranges) + 1);
}

/// Another length or address of one range; in some cases a second range makes
/// up for what the first has gained or lost.
fn change_ranges(rng: &mut Rng, script: &mut Script, place: u64, record: &Record) {
    let memory = script.state.board.memory_bytes();
    let ranges = record.data_ranges();
    let index = rng.below(ranges.len() as u64);
    let Range { address, length } = ranges[index as usize];
    let end = memory.saturating_sub(u64::from(length)) as u32;
    let changed = match rng.below(8) {
        0 => Range { address, length: length.saturating_sub(1) },
        1 => Range { address, length: (length + 1).min(0xFFFF) },
        2 => Range { address, length: (length + 512).min(0xFFFF) },
        3 => Range { address: end, length },
        4 => Range { address: end / 2 * 2 + 1, length },
        5 | 6 => Range { address: address_past(rng, memory, u64::from(length)) as u32, length },
        _ => Range { address: address ^ 1, length },
    };
    say(script, place, index, changed);
    let other = rng.below(ranges.len() as u64);
    if other != index && rng.percent(40) {
        let second = ranges[other as usize];
        let whole = length + second.length;
        let length = whole.saturating_sub(changed.length).min(0xFFFF);
        say(script, place, other, Range { length, ..second });
    }
}

fn say(script: &mut Script, place: u64, index: u64, range: Range) {
    script.say(Line::Range { place, index, range });
}

/// Puts back whatever of the ranges has changed.
fn mend(script: &mut Script, place: u64, right: &Record) {
    for index in 0..right.list.len() {
        if script.state.table[place as usize].list[index] != right.list[index] {
            say(script, place, index as u64, right.list[index]);
        }
    }
    script.spoil(place, RANGES_FIELD, field_of(right, RANGES_FIELD));
}
