//! Random spoiling of a table, aimed at both sides of each line of number 9,
//! followed by calls and mostly by a repair.

use crate::board::SECTOR_BYTES;
use crate::drive::Drive;
use crate::iopb::IOPB_BYTES;
use crate::makers::calls::call_on_table;
use crate::makers::rng::Rng;
use crate::makers::script::Script;
use crate::makers::spoil_ranges::{listed_place, spoil_ranges};
use crate::makers::ALL_32_BITS;
use crate::record::Record;
use crate::trial::line::{field_of, Line, FIELD_MOST};

/// What a record may say of sectors that would have fitted: both ends of a
/// byte, and numbers between.
pub const FITTED_TO_TRY: [u64; 7] = [0, 1, 77, 128, 163, 254, 255];

/// Spoils one thing, calls, and in most cases puts it back.
pub fn spoil_and_call(rng: &mut Rng, script: &mut Script) {
    let listed = listed_place(rng, script);
    match (rng.below(20), listed) {
        (0 | 1, _) => spoil_number(rng, script),
        (2 | 3, _) => spoil_protection(rng, script),
        (4..=12, Some(place)) => spoil_ranges(rng, script, place),
        _ => spoil_field(rng, script),
    }
}

/// A few calls on the table as it is.
pub fn some_calls(rng: &mut Rng, script: &mut Script) {
    for _ in 0..rng.between(1, 3) {
        call_on_table(rng, script);
    }
}

/// The number of commands, at and past what the table holds.
fn spoil_number(rng: &mut Rng, script: &mut Script) {
    let right = script.state.commands;
    let more = (right + 1).min(ALL_32_BITS);
    let wrong = [0, right.saturating_sub(1), more, 32, 33, 33, 40, ALL_32_BITS];
    script.say(Line::Commands(rng.one_of(&wrong)));
    some_calls(rng, script);
    if rng.percent(80) {
        script.say(Line::Commands(right));
    }
}

/// The protect mark changes between the walk and the steps.
fn spoil_protection(rng: &mut Rng, script: &mut Script) {
    let right = *script.state.drive();
    script.say(Line::Drive(Drive { protected: !right.protected, ..right }));
    some_calls(rng, script);
    if rng.percent(80) {
        script.say(Line::Drive(right));
    }
}

fn spoil_field(rng: &mut Rng, script: &mut Script) {
    // Now and then a record just past those in use: it must not matter.
    let records = script.state.commands.min(32) + u64::from(rng.once_in(8));
    let place = rng.below(records.max(1));
    let record = script.state.table[place as usize];
    let field = rng.one_of(&[0, 0, 0, 1, 2, 3, 3, 4, 4, 5, 6, 7, 8]);
    let value = wrong_value(rng, script, &record, field);
    script.spoil(place, field, value);
    if rng.once_in(12) {
        let other = wrong_value(rng, script, &record, 3);
        script.spoil(place, 3, other);
    }
    if field == 0 && rng.percent(60) {
        // Two records with the same status bytes: pick the later one.
        script.say(Line::Pick(script.state.commands.saturating_sub(1)));
    }
    some_calls(rng, script);
    if rng.percent(75) {
        script.spoil(place, field, field_of(&record, field));
    }
}

/// A value of a field at one of its lines, or just beside.
fn wrong_value(rng: &mut Rng, script: &Script, record: &Record, field: u64) -> u64 {
    let memory = script.state.board.memory_bytes();
    // The drive of the record's own unit, if that is there.
    let own = script.state.board.unit(u64::from(record.unit)).unwrap_or(script.state.unit());
    let sectors = own.drive.number_of_sectors();
    let count = u64::from(record.count);
    let taken = u64::from(record.taken);
    let either_side = |edge: u64| [edge.saturating_sub(1), edge, edge, edge + 1, edge + 1];
    let value = match field {
        0 if rng.percent(45) => {
            let other = rng.below(script.state.commands.clamp(1, 32));
            u64::from(script.state.table[other as usize].iopb) + rng.below(6)
        }
        0 if rng.once_in(4) => rng.one_of(&[memory, ALL_32_BITS, ALL_32_BITS - 29]),
        0 => rng.one_of(&either_side(memory.saturating_sub(IOPB_BYTES))),
        1 if rng.once_in(4) => rng.one_of(&[ALL_32_BITS, (1 << 32) - SECTOR_BYTES, memory]),
        1 => rng.one_of(&either_side(memory.saturating_sub(record.data_bytes()))),
        2 if rng.once_in(3) => {
            let equal = own.drive.as_if_equal().number_of_sectors();
            rng.one_of(&[ALL_32_BITS, sectors, equal.saturating_sub(count)])
        }
        2 => rng.one_of(&either_side(sectors.saturating_sub(count))),
        3 if rng.once_in(6) => ALL_32_BITS,
        3 => rng.one_of(&either_side(record.steps())),
        4 => wrong_count(rng, memory, sectors, record),
        5 => u64::from(record.byte0 & 0xF0) | rng.one_of(&[0, 1, 1, 2, 2, 3, 7, 15]),
        6 => rng.one_of(&[0, 0, 0x10, 0x14, 0x90, 0xFF, taken % 256]),
        // Ranges where there were none, of length 0 or left from before.
        7 => rng.one_of(&[0, 1, 2, 32, 33, 256, 257, 65_503, 65_535]),
        // Any number of sectors that would have fitted: none is wrong.
        _ => rng.one_of(&FITTED_TO_TRY),
    };
    value.min(FIELD_MOST[field as usize])
}

/// Counts at zero, at the steps taken, at the end of memory and of the drive.
fn wrong_count(rng: &mut Rng, memory: u64, sectors: u64, record: &Record) -> u64 {
    let taken = u64::from(record.taken);
    let fit_memory = memory.saturating_sub(u64::from(record.data)) / SECTOR_BYTES;
    let fit_drive = sectors.saturating_sub(u64::from(record.sector));
    let fit = fit_memory.min(fit_drive);
    rng.one_of(&[0, 0, taken, taken.saturating_sub(1), fit, fit + 1, fit_drive + 1, 0xFFFF])
}
