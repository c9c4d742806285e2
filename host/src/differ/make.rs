//! Makes and plays the n-th chain of a seed. The seed and the chain's number decide everything.

use crate::boards::Board;
use crate::declared::UNITS;
use crate::differ::acts::{act, look_around, random_sector, walk};
use crate::differ::call::Call;
use crate::differ::counts::Counts;
use crate::differ::ends::chain_about_ends;
use crate::differ::lists::give_list;
use crate::differ::over_units::chain_over_units;
use crate::differ::play::{Play, Played};
use crate::differ::units::{add_units, aimed_at, any_unit, some_unit, spread};
use second::board::SECTOR_BYTES;
use second::makers::chain::{random_chain, Chain};
use second::makers::ground::{any_drive, ground, limit_ground};
use second::makers::rng::Rng;
use second::makers::script::Script;
use second::makers::wide_drives::edge_drive;
use second::record::Record;

/// Plays one chain on both sides. The error says which call differed, and what each gave.
pub fn play_chain(board: &Board, seed: u64, n: u64, counts: &mut Counts, tell: bool) -> Played {
    counts.chains += 1;
    let mut play = Play::new(board, Rng::for_case(seed, n), counts, tell);
    match play.rng.below(100) {
        0..=72 => chain(&mut play),
        73..=77 => chain_over_units(&mut play),
        78..=83 => chain_about_ends(&mut play),
        84..=91 => table_by_hand(&mut play),
        92..=95 => sizes(&mut play),
        96 | 97 => places(&mut play),
        _ => views(&mut play),
    }
}

/// The ground of a chain: memory, and unit 0's drive and image, as the second program's makers give
/// it; on more than half of all, other units beside it.
pub fn lay_ground(play: &mut Play, make: fn(&mut Rng, &mut Script)) {
    let mut script = Script::default();
    make(&mut play.rng, &mut script);
    let mut board = script.state.board;
    if play.rng.percent(60) {
        add_units(&mut play.rng, &mut board);
    }
    play.say(|| format!("memory of {} bytes", board.memory.len()));
    for (number, unit) in board.units.iter().enumerate() {
        let (there, image) = (if unit.there { "there" } else { "absent" }, unit.image.len());
        play.say(|| format!("unit {number}, {there}: {:?}, image of {image} bytes", unit.drive));
    }
    play.sides.set_ground(board);
}

/// A random chain, put in memory over a few random bytes.
fn lay_chain(play: &mut Play) {
    let memory = play.sides.ground().memory.len();
    for _ in 0..play.rng.below(4) {
        if memory >= 4 {
            let at = play.rng.between(0, memory as u64 - 4) as usize;
            let bytes = play.rng.bytes(4);
            play.sides.put(at, &bytes);
        }
    }
    let aimed = aimed_at(&mut play.rng, play.sides.ground());
    let ground = play.sides.ground();
    let mut chain = random_chain(&mut play.rng, ground.memory_bytes(), &ground.units[aimed].drive);
    spread(&mut play.rng, ground, aimed, &mut chain);
    put_chain(play, chain);
}

/// Puts a chain in memory, its lists first.
pub fn put_chain(play: &mut Play, chain: Chain) {
    play.chain = chain;
    for (at, bytes) in play.chain.lists.clone() {
        play.say(|| format!("link list at {at}: {bytes:02X?}"));
        play.sides.put(at as usize, &bytes);
    }
    for (at, block) in play.chain.blocks.clone() {
        play.say(|| format!("IOPB at {at}: {:02X?}", block.bytes));
        play.sides.put(at as usize, &block.bytes);
    }
}

/// The usual case: a chain, a walk, steps in many ways, then the rest as written.
fn chain(play: &mut Play) -> Played {
    lay_ground(play, ground);
    lay_chain(play);
    if play.rng.percent(12) {
        let start = false_start(play);
        walk(play, start)?;
    }
    let start = play.chain.start as u32;
    walk(play, start)?;
    let acts = if play.commands == 0 { 1 } else { play.rng.between(1, 6) };
    for _ in 0..acts {
        act(play)?;
    }
    if play.rng.percent(75) {
        let budget = play.rng.one_of(&[u64::MAX, 100_000, 1 << 32]);
        play.call(Call::Written { budget, commands: play.commands, lent: 32 })?;
        look_around(play)?;
    }
    if play.rng.percent(8) {
        // The same chain again, over whatever the data left of it.
        walk(play, start)?;
        let budget = play.rng.below(6);
        play.call(Call::Written { budget, commands: play.commands, lent: 32 })?;
    }
    Ok(())
}

/// A walk from a wrong place.
fn false_start(play: &mut Play) -> u32 {
    let memory = play.sides.ground().memory.len() as u64;
    let last = memory.saturating_sub(30);
    let rng = &mut play.rng;
    let start = match rng.below(6) {
        0 => 2 * rng.below(memory / 2 + 20) + 1,
        1 => last / 2 * 2 + 2,
        2 => rng.one_of(&[0xFFFF_FFFF, 0xFFFF_FFFE, 0xFFFF_FFE2, 65_536]),
        3 => last,
        _ => rng.between(0, last),
    };
    start as u32
}

/// A table made by hand, with no walk before: IOPBs may meet, as no walk lets them.
fn table_by_hand(play: &mut Play) -> Played {
    lay_ground(play, ground);
    let records = if play.rng.once_in(8) { 32 } else { play.rng.between(1, 8) };
    for place in 0..records {
        let record = random_record(play);
        play.say(|| format!("record {place}: {record:?}"));
        play.sides.set_record(place as usize, record);
    }
    play.commands = records as usize;
    for _ in 0..play.rng.between(2, 6) {
        act(play)?;
    }
    play.call(Call::Written { budget: u64::MAX, commands: play.commands, lent: 32 })?;
    Ok(())
}

/// A record that is mostly sound, of any unit.
fn random_record(play: &mut Play) -> Record {
    let (memory, ground) = (play.sides.ground().memory_bytes(), play.sides.ground());
    let rng = &mut play.rng;
    let unit = if rng.percent(4) { any_unit(rng, ground) } else { some_unit(rng, ground) as u8 };
    let drive = ground.drive_of(unit.into());
    let sectors = drive.number_of_sectors();
    let count = rng.between(1, sectors.min(memory / SECTOR_BYTES).clamp(1, 4));
    let last_place = memory.saturating_sub(30);
    let command = rng.one_of(&[0, 1, 1, 2, 2, 2, 7]);
    let mut record = Record {
        iopb: rng.one_of(&[0, 2, 3, 4, 30, last_place]).min(last_place) as u32,
        data: rng.between(0, memory.saturating_sub(count * SECTOR_BYTES)) as u32,
        sector: rng.between(0, sectors - count) as u32,
        taken: 0,
        count: count as u16,
        byte0: rng.byte() & 0xF0 | command,
        code: if (command == 1 && drive.protected) || rng.once_in(6) {
            rng.one_of(&[0x90, 0x90, 0x10, 0x4B])
        } else {
            0
        },
        // any number goes with any code
        fitted: if rng.percent(40) { rng.byte() } else { 0 },
        unit,
        ..Record::default()
    };
    if rng.percent(45) {
        give_list(rng, memory, &mut record);
    }
    if !record.is_transfer() && rng.percent(50) {
        // Nothing of these is looked at where nothing moves.
        (record.data, record.sector) = (rng.next() as u32, rng.next() as u32);
        record.count = rng.next() as u16;
        record.unit = rng.one_of(&[0, 1, 2, 3, 4, 7, 8, 255, unit]);
    }
    if rng.once_in(4) {
        record.taken = rng.between(0, record.steps()) as u32;
    }
    record
}

/// Sizes at and past the limits.
fn sizes(play: &mut Play) -> Played {
    lay_ground(play, limit_ground);
    lay_chain(play);
    let start = play.chain.start as u32;
    walk(play, start)?;
    act(play)?;
    look_around(play)?;
    play.call(Call::Written { budget: u64::MAX, commands: play.commands, lent: 32 })?;
    Ok(())
}

/// Places on drives of any size: no image is needed for them.
fn places(play: &mut Play) -> Played {
    for _ in 0..play.rng.between(2, 5) {
        let rng = &mut play.rng;
        let drive = if rng.percent(30) { edge_drive(rng) } else { any_drive(rng) };
        let unit = rng.below(UNITS as u64) as usize;
        play.say(|| format!("the drive of unit {unit} becomes {drive:?}"));
        play.sides.set_drive(unit, drive);
        for _ in 0..play.rng.between(1, 4) {
            let sector = random_sector(play, unit);
            play.call(Call::Place { unit, sector })?;
        }
    }
    Ok(())
}

/// Views over random bytes in a small memory.
fn views(play: &mut Play) -> Played {
    let length = play.rng.between(0, 100);
    let memory = play.rng.bytes(length);
    play.sides.set_memory(memory);
    for _ in 0..play.rng.between(3, 10) {
        let at = match play.rng.below(10) {
            0 => play.rng.one_of(&[0xFFFF_FFFF, 0xFFFF_FFFE, 0xFFFF_FFE2]),
            1 => length.saturating_sub(30),
            2 => length.saturating_sub(30) + play.rng.between(1, 2),
            _ => play.rng.below(length + 2),
        };
        play.call(Call::View { at: at as u32 })?;
    }
    Ok(())
}
