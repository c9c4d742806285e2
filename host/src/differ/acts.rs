//! Random calls after a walk: picks, lists, runs, looks, places and views, by tables of any lent
//! length, and things that a host may do in between.

use crate::declared::UNITS;
use crate::differ::call::{Call, Reply};
use crate::differ::play::{Play, Played};
use crate::differ::sides::RECORDS;
use crate::differ::spoil::{spoil_and_call, wrong_size_and_call};
use crate::differ::units::{any_unit, some_unit};
use second::drive::Drive;
use second::makers::rng::Rng;

/// A walk, mostly with 32 records lent; after a table that is too short, again with enough.
pub fn walk(play: &mut Play, start: u32) -> Played {
    let lent = lent_length(play);
    walk_with(play, start, lent)?;
    if lent < 32 {
        walk_with(play, start, 32)?;
    }
    Ok(())
}

fn walk_with(play: &mut Play, start: u32, lent: usize) -> Played {
    if let Reply::Walked(walked) = play.call(Call::Walk { start, lent })? {
        play.commands = walked.commands;
    }
    Ok(())
}

/// Mostly 32 records, now and then more, and now and then too few.
fn lent_length(play: &mut Play) -> usize {
    match play.rng.below(20) {
        0 => play.rng.one_of(&[0, 1, 16, 31]),
        1 | 2 => play.rng.one_of(&[33, 39, RECORDS]),
        _ => 32,
    }
}

/// One thing that a caller may do after the walk.
pub fn act(play: &mut Play) -> Played {
    match play.rng.below(100) {
        0..=29 => {
            for _ in 0..play.rng.between(1, 4) {
                one_pick(play)?;
            }
            Ok(())
        }
        30..=47 => list_of_picks(play),
        48..=56 => written(play),
        57..=64 => look_around(play),
        65..=83 => spoil_and_call(play),
        84..=90 => wrong_size_and_call(play),
        91..=95 => {
            host_writes(play);
            one_pick(play)
        }
        _ => {
            let start = play.chain.start as u32;
            walk(play, start)
        }
    }
}

/// Any call on the table; also used where the table is spoiled.
pub fn call_on_table(play: &mut Play) -> Played {
    match play.rng.below(7) {
        0..=2 => one_pick(play),
        3 | 4 => list_of_picks(play),
        _ => written(play),
    }
}

fn one_pick(play: &mut Play) -> Played {
    let place = random_place(play);
    let lent = lent_length(play);
    play.call(Call::Pick { place, commands: play.commands, lent })?;
    Ok(())
}

fn written(play: &mut Play) -> Played {
    let budget = play.rng.one_of(&[0, 1, 1, 2, 2, 3, 5, 9, u64::MAX]);
    let lent = lent_length(play);
    play.call(Call::Written { budget, commands: play.commands, lent })?;
    Ok(())
}

/// A list of picks, refused ones among them.
fn list_of_picks(play: &mut Play) -> Played {
    let length = match play.rng.below(40) {
        0 => 300,
        1..=3 => play.rng.below(2),
        // Long enough to finish some chains, not all.
        _ => play.rng.between(2, 8 + 2 * play.commands.min(20) as u64),
    };
    let mut picks: Vec<u8> = Vec::new();
    while (picks.len() as u64) < length {
        let place = random_place(play).min(255) as u8;
        // One place now and then several times on end, also more often than it has steps.
        let times = if play.rng.once_in(5) { play.rng.between(2, 6) } else { 1 };
        picks.extend((0..times).map(|_| place));
    }
    let lent = lent_length(play);
    play.call(Call::Picks { picks, commands: play.commands, lent })?;
    Ok(())
}

/// A place: mostly one in use, often an unfinished one, now and then none.
fn random_place(play: &mut Play) -> usize {
    let commands = play.commands;
    let rng = &mut play.rng;
    match rng.below(40) {
        0 => commands,
        1 => rng.one_of(&[commands.saturating_add(1), 31, 32, 39, 255, 256, 1 << 32, usize::MAX]),
        2..=5 => commands.clamp(1, 32) - 1,
        6..=15 => rng.below(commands.clamp(1, RECORDS) as u64) as usize,
        _ => unfinished_place(play),
    }
}

/// An unfinished place, if there is one.
fn unfinished_place(play: &mut Play) -> usize {
    let in_use = &play.sides.table()[..play.commands.min(32)];
    let open: Vec<usize> = (0..in_use.len()).filter(|place| !in_use[*place].finished()).collect();
    if open.is_empty() {
        return play.rng.below(play.commands.clamp(1, RECORDS) as u64) as usize;
    }
    play.rng.one_of(&open)
}

/// The host writes in its own memory after the walk, also over a link list: the table has copied what
/// it needs.
fn host_writes(play: &mut Play) {
    let memory = play.sides.ground().memory.len();
    if memory < 30 {
        return;
    }
    let blocks = play.chain.blocks.iter().map(|(at, _)| *at);
    let lists = play.chain.lists.iter().map(|(at, _)| *at);
    let places: Vec<u64> = blocks.chain(lists).collect();
    let last = memory as u64 - 30;
    let at = if places.is_empty() { play.rng.between(0, last) } else { play.rng.one_of(&places) };
    let at = at.min(last);
    let bytes = play.rng.bytes(30);
    play.say(|| format!("the host writes at {at}: {bytes:02X?}"));
    play.sides.put(at as usize, &bytes);
}

/// Looks at a sector of some unit, asks for a place, and views an IOPB or two, at edges and where the
/// chain lies.
pub fn look_around(play: &mut Play) -> Played {
    look(play)?;
    let unit = some_unit(&mut play.rng, play.sides.ground());
    let sector = random_sector(play, unit);
    play.call(Call::Place { unit, sector })?;
    for _ in 0..play.rng.between(1, 2) {
        let at = random_address(play);
        play.call(Call::View { at: at.min(0xFFFF_FFFF) as u32 })?;
    }
    Ok(())
}

/// Looks at a sector of any unit, mostly of one that is there.
pub fn look(play: &mut Play) -> Played {
    let unit = any_unit(&mut play.rng, play.sides.ground());
    // of a unit that is not there, a sector that another has
    let other = play.rng.below(UNITS as u64) as usize;
    let drive_of = if usize::from(unit) < UNITS { unit.into() } else { other };
    let sector = random_sector(play, drive_of);
    play.call(Call::Look { unit, sector })?;
    Ok(())
}

/// A sector's number on the drive lent for a unit: mostly one that the drive has, often at the end of a
/// head; now and then past the last, also one that the drive would have if its heads were equal, or that
/// another unit's drive has.
pub fn random_sector(play: &mut Play, unit: usize) -> u32 {
    let drive = play.sides.ground().units[unit].drive;
    let other = play.rng.below(UNITS as u64) as usize;
    let others = play.sides.ground().units[other].drive.number_of_sectors();
    let sectors = drive.number_of_sectors();
    let rng = &mut play.rng;
    let sector = match rng.below(20) {
        0 | 1 => sectors,
        2 => rng.one_of(&[sectors + 1, 0xFFFF_FFFF]),
        3 => drive.as_if_equal().number_of_sectors() - 1,
        4 | 5 => sectors - 1,
        6 => others - 1,
        7..=9 => end_of_a_head(rng, &drive),
        _ => rng.below(sectors),
    };
    sector.min(0xFFFF_FFFF) as u32
}

/// The last sector of a head, mostly of the last one, or the sector after it.
fn end_of_a_head(rng: &mut Rng, drive: &Drive) -> u64 {
    let cylinder = rng.below(drive.cylinders());
    let head = if rng.percent(60) { drive.heads() - 1 } else { rng.below(drive.heads()) };
    drive.sector_number(cylinder, head, drive.max_sector_of(head)) + rng.below(2)
}

/// An address for a view: at memory's end, past it, or on the chain.
fn random_address(play: &mut Play) -> u64 {
    let last = play.sides.ground().memory_bytes().saturating_sub(30);
    let blocks = play.chain.blocks.len() as u64;
    match play.rng.below(10) {
        0 => last,
        1 => last + play.rng.between(1, 2),
        2 => play.rng.one_of(&[0xFFFF_FFFF, 0xFFFF_FFFE, 0xFFFF_FFE2]),
        3 => play.rng.between(0, last),
        _ if blocks == 0 => play.rng.below(4),
        _ => play.chain.blocks[play.rng.below(blocks) as usize].0,
    }
}
