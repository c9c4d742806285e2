//! Spoils one thing, the table, the number of commands, the protect mark of a unit, whether it is there,
//! or a size, at both sides of its line; calls; and mostly puts it back.

use crate::differ::acts::{call_on_table, look, random_sector};
use crate::differ::call::Call;
use crate::differ::lists::{listed_place, spoil_list};
use crate::differ::play::{Play, Played};
use crate::differ::units::{any_unit, some_unit, used_unit};
use second::board::{IMAGE_LIMIT, SECTOR_BYTES};
use second::drive::Drive;
use second::makers::ground::other_drive;
use second::makers::rng::Rng;
use second::makers::wide_drives::tempting_drive;
use second::record::Record;
use second::trial::line::{field_of, set_field, FIELD_MOST};

pub fn spoil_and_call(play: &mut Play) -> Played {
    let listed = listed_place(play);
    match (play.rng.below(20), listed) {
        (0 | 1, _) => spoil_commands(play),
        (2 | 3, _) => spoil_protection(play),
        (4 | 5, _) => spoil_presence(play),
        (6..=12, Some(place)) => spoil_list(play, place),
        _ => spoil_field(play),
    }
}

pub fn some_calls(play: &mut Play) -> Played {
    for _ in 0..play.rng.between(1, 3) {
        call_on_table(play)?;
    }
    Ok(())
}

/// The number of commands, at and past what the table holds, and where 32 bits would wrap.
fn spoil_commands(play: &mut Play) -> Played {
    let right = play.commands;
    let wrap = 1 << 32;
    let wrong =
        [0, right.saturating_sub(1), right + 1, 32, 33, 33, 40, wrap, wrap + right, usize::MAX];
    play.commands = play.rng.one_of(&wrong);
    some_calls(play)?;
    // A number over 32 stays only for the calls that are to meet it.
    if play.commands > 32 || play.rng.percent(80) {
        play.commands = right;
    }
    Ok(())
}

/// The protect mark of a unit changes between the walk and the steps.
fn spoil_protection(play: &mut Play) -> Played {
    let unit = used_unit(play);
    let right = play.sides.ground().units[unit].drive;
    play.say(|| format!("the protect mark of unit {unit} becomes {}", !right.protected));
    play.sides.set_drive(unit, Drive { protected: !right.protected, ..right });
    some_calls(play)?;
    if play.rng.percent(80) {
        play.sides.set_drive(unit, right);
    }
    Ok(())
}

/// A drive is taken away between the walk and the steps, or one comes.
fn spoil_presence(play: &mut Play) -> Played {
    let unit = used_unit(play);
    let right = play.sides.ground().units[unit].there;
    play.say(|| format!("whether unit {unit} is there becomes {}", !right));
    play.sides.set_there(unit, !right);
    some_calls(play)?;
    if play.rng.percent(30) {
        look(play)?;
    }
    if play.rng.percent(90) {
        play.sides.set_there(unit, right);
    }
    Ok(())
}

/// One field of one record; now and then a record past those in use, which must not matter.
fn spoil_field(play: &mut Play) -> Played {
    let records = play.commands.min(32) + usize::from(play.rng.once_in(8));
    let place = play.rng.below(records.max(1) as u64) as usize;
    let right = play.sides.table()[place];
    let field = play.rng.one_of(&[0, 0, 0, 1, 2, 3, 3, 4, 4, 5, 6, 7, 8, 8, 9, 9, 9]);
    let value = wrong_value(play, &right, field);
    let mut wrong = right;
    set_field(&mut wrong, field, value);
    if play.rng.once_in(12) {
        let taken = wrong_value(play, &right, 3);
        set_field(&mut wrong, 3, taken);
    }
    play.say(|| format!("record {place} becomes {wrong:?}"));
    play.sides.set_record(place, wrong);
    some_calls(play)?;
    if play.rng.percent(75) {
        let mut mended = play.sides.table()[place];
        set_field(&mut mended, field, field_of(&right, field));
        play.say(|| format!("record {place} becomes {mended:?}"));
        play.sides.set_record(place, mended);
    }
    Ok(())
}

/// A value of a field at one of its lines, or just beside.
fn wrong_value(play: &mut Play, record: &Record, field: u64) -> u64 {
    let memory = play.sides.ground().memory_bytes();
    let sectors = play.sides.ground().drive_of(record.unit.into()).number_of_sectors();
    let unit = any_unit(&mut play.rng, play.sides.ground());
    let other = play.rng.below(play.commands.clamp(1, 32) as u64) as usize;
    let other_iopb = u64::from(play.sides.table()[other].iopb);
    let rng = &mut play.rng;
    let value = match field {
        // Two records whose status bytes meet.
        0 if rng.percent(45) => other_iopb + rng.below(6),
        0 => beside(rng, memory.saturating_sub(30)),
        1 => beside(rng, memory.saturating_sub(record.data_bytes())),
        2 => beside(rng, sectors.saturating_sub(u64::from(record.count))),
        3 => beside(rng, record.steps()),
        4 => wrong_count(rng, memory, sectors, record),
        5 => u64::from(record.byte0 & 0xF0) | rng.one_of(&[0, 1, 1, 2, 2, 3, 7, 15]),
        6 => rng.one_of(&[0, 0, 0x10, 0x14, 0x90, 0xFF]),
        // ranges where there were none, or none where there were some
        7 => rng.one_of(&[0, 1, 2, 32, 33, 0xFFFF]),
        // no number of sectors that would have fitted is wrong, whatever the code
        8 if rng.percent(50) => rng.byte().into(),
        8 => rng.one_of(&[0, 1, 128, 254, 255]),
        _ if rng.percent(10) => rng.byte().into(),
        _ => unit.into(),
    };
    value.min(FIELD_MOST[field as usize])
}

/// Just at a line, or one to either side; now and then where 32 bits would wrap.
fn beside(rng: &mut Rng, line: u64) -> u64 {
    if rng.once_in(6) {
        return rng.one_of(&[0xFFFF_FFFF, 0xFFFF_FFE2, (1 << 32) - SECTOR_BYTES]);
    }
    rng.one_of(&[line.saturating_sub(1), line, line, line + 1, line + 1])
}

/// Counts at zero, at the steps taken, at the end of memory and of the drive.
fn wrong_count(rng: &mut Rng, memory: u64, sectors: u64, record: &Record) -> u64 {
    let taken = u64::from(record.taken);
    let fit_memory = memory.saturating_sub(u64::from(record.data)) / SECTOR_BYTES;
    let fit_drive = sectors.saturating_sub(u64::from(record.sector));
    let fit = fit_memory.min(fit_drive);
    rng.one_of(&[0, 0, taken, taken.saturating_sub(1), fit, fit + 1, fit_drive + 1, 0xFFFF])
}

/// Makes drive, image or memory of the wrong size, calls, and mends it.
pub fn wrong_size_and_call(play: &mut Play) -> Played {
    let unit = some_unit(&mut play.rng, play.sides.ground());
    match play.rng.below(8) {
        0..=4 => {
            let right = play.sides.ground().units[unit].drive;
            let wrong = wrong_drive(play, right);
            play.say(|| format!("the drive of unit {unit} becomes {wrong:?}"));
            play.sides.set_drive(unit, wrong);
            calls_on_sizes(play, unit)?;
            play.sides.set_drive(unit, right);
        }
        5 | 6 => {
            let right = play.sides.ground().units[unit].image.clone();
            let mut image = right.clone();
            image.resize(wrong_image_length(play, unit), 0x5A);
            play.say(|| format!("the image of unit {unit} has {} bytes", image.len()));
            play.sides.set_image(unit, image);
            calls_on_sizes(play, unit)?;
            play.sides.set_image(unit, right);
        }
        _ => {
            let mut memory = play.sides.ground().memory.clone();
            memory.resize(play.rng.one_of(&[65_536, 65_537, 66_560]), 0xA5);
            play.say(|| format!("memory has {} bytes", memory.len()));
            play.sides.set_memory(memory);
            calls_on_sizes(play, unit)?;
        }
    }
    Ok(())
}

/// A drive beside the right one, or one so large that its size would be right in fewer bits.
fn wrong_drive(play: &mut Play, right: Drive) -> Drive {
    let rng = &mut play.rng;
    let sectors = right.number_of_sectors();
    // a drive that no image could be right for may have no larger one beside it
    if SECTOR_BYTES * sectors <= IMAGE_LIMIT && rng.once_in(6) {
        return Drive { protected: right.protected, ..tempting_drive(rng, sectors) };
    }
    other_drive(rng, right)
}

/// A length beside the right one, or that of a drive with equal heads.
fn wrong_image_length(play: &mut Play, unit: usize) -> usize {
    let unit = &play.sides.ground().units[unit];
    let full = unit.image.len();
    let equal = SECTOR_BYTES * unit.drive.as_if_equal().number_of_sectors();
    // with equal heads a large drive would ask for more than is worth laying
    let equal = equal.min(IMAGE_LIMIT + SECTOR_BYTES) as usize;
    let wrong = [
        0,
        1,
        full.saturating_sub(1),
        full + 1,
        full.saturating_sub(512),
        full + 512,
        equal,
        equal,
    ];
    play.rng.one_of(&wrong)
}

/// Calls that meet a wrong size; one that looks, at any unit, meets only an image's and a drive's, one
/// that asks for a place only the drive's.
fn calls_on_sizes(play: &mut Play, unit: usize) -> Played {
    for _ in 0..play.rng.between(1, 3) {
        match play.rng.below(8) {
            0 | 1 => {
                let unit = any_unit(&mut play.rng, play.sides.ground());
                let sector = play.rng.below(40) as u32;
                play.call(Call::Look { unit, sector })?;
            }
            2 => {
                let sector = random_sector(play, unit);
                play.call(Call::Place { unit, sector })?;
            }
            _ => call_on_table(play)?,
        }
    }
    if play.rng.percent(25) {
        // Its commands are not taken over: the table is still the one of the walk before.
        let start = 2 * play.rng.below(20) as u32;
        let saved = play.commands;
        if play.call(Call::Walk { start, lent: 32 })?.number() != 0 {
            play.commands = saved;
        }
    }
    Ok(())
}
