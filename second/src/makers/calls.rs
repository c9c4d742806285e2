//! Random calls after a walk: picks, lists, runs, looks and views, and calls
//! on boards whose sizes have gone wrong.

use crate::board::SECTOR_BYTES;
use crate::drive::Drive;
use crate::makers::chain::Chain;
use crate::makers::ground::{fill_image, other_drive};
use crate::makers::rng::Rng;
use crate::makers::script::Script;
use crate::makers::spoil::spoil_and_call;
use crate::makers::ALL_32_BITS;
use crate::trial::line::Line;

/// A walk, now and then by the lent form and with other lengths.
pub fn walk(rng: &mut Rng, script: &mut Script, start: u64) {
    if rng.percent(20) {
        if rng.percent(30) {
            script.say(Line::Lent(rng.one_of(&[0, 31, 32, 33, 39, 40])));
        }
        script.say(Line::LentWalk(start));
        if script.state.lent >= 32 {
            return;
        }
        script.say(Line::Lent(32));
    }
    script.say(Line::Walk(start));
}

/// One thing that a caller may do after the walk.
pub fn act(rng: &mut Rng, script: &mut Script, chain: &Chain) {
    match rng.below(100) {
        0..=25 => {
            for _ in 0..rng.between(1, 4) {
                let place = random_place(rng, script);
                script.say(Line::Pick(place));
            }
        }
        26..=45 => random_list(rng, script),
        46..=54 => {
            script.say(Line::Written(rng.below(5)));
        }
        55..=62 => look_around(rng, script, chain),
        63..=65 => {
            script.say(Line::Steps);
        }
        66..=68 => ask_places(rng, script),
        69..=85 => spoil_and_call(rng, script),
        86..=93 => lent_calls(rng, script, chain),
        _ => wrong_size_and_call(rng, script),
    }
}

/// A place: mostly one in use, often an unfinished one, now and then none.
fn random_place(rng: &mut Rng, script: &Script) -> u64 {
    let commands = script.state.commands;
    match rng.below(40) {
        0 => commands,
        1 => rng.one_of(&[commands + 1, 31, 32, 39, 255, 256, ALL_32_BITS]).min(ALL_32_BITS),
        2..=5 => commands.clamp(1, 32) - 1,
        6..=15 => rng.below(commands.clamp(1, 40)),
        _ => unfinished_place(rng, script),
    }
}

/// An unfinished place, if there is one.
fn unfinished_place(rng: &mut Rng, script: &Script) -> u64 {
    let in_use = &script.state.table[..script.state.commands.min(32) as usize];
    let open: Vec<usize> = (0..in_use.len()).filter(|place| !in_use[*place].finished()).collect();
    if open.is_empty() {
        return rng.below(script.state.commands.clamp(1, 40));
    }
    rng.one_of(&open) as u64
}

/// A list of picks, refused ones among them.
fn random_list(rng: &mut Rng, script: &mut Script) {
    let length = match rng.below(40) {
        0 => 256,
        1..=3 => rng.below(2),
        // Long enough to finish some chains, not all.
        _ => rng.between(2, 8 + 2 * script.state.commands.min(20)),
    };
    let places = (0..length).map(|_| random_place(rng, script).min(255) as u8).collect();
    script.say(Line::Picks(places));
}

/// Any call on the table; also used where the table is spoiled.
pub fn call_on_table(rng: &mut Rng, script: &mut Script) {
    let place = random_place(rng, script);
    match rng.below(8) {
        0..=2 => {
            script.say(Line::Pick(place));
        }
        3 | 4 => random_list(rng, script),
        5 => {
            script.say(Line::Written(rng.one_of(&[0, 1, 1, 2, 2, 3, 5, u64::MAX])));
        }
        6 => {
            script.say(Line::LentPick(place));
        }
        _ => {
            script.say(Line::Steps);
        }
    }
}

/// Looks at sectors, fields and views, at edges and where the chain lies.
pub fn look_around(rng: &mut Rng, script: &mut Script, chain: &Chain) {
    let sector = random_sector(rng, script);
    script.say(Line::Look { unit: script.state.chosen as u64, sector });
    if rng.percent(30) {
        // The place of the sector just looked at, as often as not.
        let other = random_sector(rng, script);
        script.say(Line::Place(rng.one_of(&[sector, other])));
    }
    for _ in 0..rng.between(1, 2) {
        let address = random_address(rng, script, chain);
        script.say(if rng.percent(50) { Line::Fields(address) } else { Line::View(address) });
    }
}

/// Places of a few numbers, one of them often beside the one before.
pub fn ask_places(rng: &mut Rng, script: &mut Script) {
    for _ in 0..rng.between(1, 3) {
        let sector = random_sector(rng, script);
        script.say(Line::Place(sector));
        if rng.percent(50) {
            script.say(Line::Place((sector + 1).min(ALL_32_BITS)));
        }
    }
}

/// A sector's number: mostly one of the drive's, often at the end of a head,
/// now and then past the last.
fn random_sector(rng: &mut Rng, script: &Script) -> u64 {
    let drive = script.state.drive();
    let sectors = drive.number_of_sectors();
    let number = match rng.below(20) {
        0 | 1 => sectors,
        2 => rng.one_of(&[sectors + 1, ALL_32_BITS]),
        3 => drive.as_if_equal().number_of_sectors() - 1,
        4 | 5 => sectors - 1,
        6..=8 => end_of_head(rng, drive),
        _ => rng.below(sectors),
    };
    number.min(ALL_32_BITS)
}

/// The last sector of some head, or the one after it.
fn end_of_head(rng: &mut Rng, drive: &Drive) -> u64 {
    let cylinder = rng.below(drive.cylinders());
    let head = if rng.percent(60) { drive.heads() - 1 } else { rng.below(drive.heads()) };
    drive.sector_number(cylinder, head, drive.max_sector_of(head)) + rng.below(2)
}

/// An address for a view: at memory's end, past it, or on the chain.
pub fn random_address(rng: &mut Rng, script: &Script, chain: &Chain) -> u64 {
    let last = script.state.board.memory_bytes().saturating_sub(30);
    match rng.below(10) {
        0 => last,
        1 => last + rng.between(1, 2),
        2 => rng.one_of(&[ALL_32_BITS, ALL_32_BITS - 1, ALL_32_BITS - 29]),
        3 => rng.between(0, last),
        _ if chain.blocks.is_empty() => rng.below(4),
        _ => chain.blocks[rng.below(chain.blocks.len() as u64) as usize].0,
    }
}

/// Calls by the lent form, with lent tables below, at and above 32.
fn lent_calls(rng: &mut Rng, script: &mut Script, chain: &Chain) {
    script.say(Line::Lent(rng.one_of(&[0, 1, 31, 32, 33, 40, 40])));
    if rng.percent(20) {
        script.say(Line::LentWalk(chain.start));
    }
    for _ in 0..rng.between(1, 3) {
        let place = random_place(rng, script);
        script.say(Line::LentPick(place));
    }
    if script.state.commands == 0 {
        script.say(Line::Lent(32));
        script.say(Line::LentWalk(chain.start));
    }
}

/// Makes drive, image or memory of the wrong size, calls, and mends it.
fn wrong_size_and_call(rng: &mut Rng, script: &mut Script) {
    let right = *script.state.drive();
    match rng.below(8) {
        0..=4 => {
            script.say(Line::Drive(other_drive(rng, right)));
            calls_on_sizes(rng, script);
            script.say(Line::Drive(right));
        }
        5 | 6 => {
            let length = wrong_image_length(rng, script);
            script.say(Line::Image { length, a: rng.byte(), b: rng.byte(), c: rng.byte() });
            calls_on_sizes(rng, script);
            fill_image(rng, script);
        }
        _ => {
            let length = rng.one_of(&[65_536, 65_537, 66_560]);
            script.say(Line::Memory { length, a: rng.byte(), b: rng.byte() });
            calls_on_sizes(rng, script);
        }
    }
}

/// An image's length beside the right one, or that of equal heads.
fn wrong_image_length(rng: &mut Rng, script: &Script) -> u64 {
    let right = script.state.unit().image.len() as u64;
    let equal = SECTOR_BYTES * script.state.drive().as_if_equal().number_of_sectors();
    let beside = [right - 1, right + 1, right - SECTOR_BYTES, right + SECTOR_BYTES];
    match rng.below(8) {
        0 => 0,
        1 => 1,
        2 | 3 => equal,
        _ => rng.one_of(&beside),
    }
}

/// Calls that meet a wrong size; one that looks meets only the image's, and
/// one that asks for a place only the drive's.
pub fn calls_on_sizes(rng: &mut Rng, script: &mut Script) {
    for _ in 0..rng.between(1, 3) {
        match rng.below(8) {
            0 | 1 => {
                let unit = script.state.chosen as u64;
                script.say(Line::Look { unit, sector: rng.below(40) });
            }
            2 => {
                script.say(Line::Place(rng.below(60)));
            }
            _ => call_on_table(rng, script),
        }
    }
    if rng.percent(25) {
        let start = 2 * rng.below(20);
        script.say(if rng.percent(50) { Line::Walk(start) } else { Line::LentWalk(start) });
    }
}
