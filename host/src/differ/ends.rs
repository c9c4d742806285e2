//! Chains about the ends of drive and memory: drives on which 255 sectors and more can be left, and
//! commands that end just before an end, just past it or far past it.

use crate::differ::acts::{act, walk};
use crate::differ::call::Call;
use crate::differ::make::{lay_ground, put_chain};
use crate::differ::play::{Play, Played};
use crate::differ::units::{aimed_at, spread, unit_of};
use second::board::{Board, SECTOR_BYTES};
use second::drive::Drive;
use second::makers::block::Block;
use second::makers::chain::random_chain;
use second::makers::ground::{fill_image, small_drive};
use second::makers::rng::Rng;
use second::makers::script::Script;
use second::makers::wide_drives::some_drive_of;
use second::place::counted_to;
use second::record::Record;
use second::trial::line::Line;

const SGM: u8 = 0x10;

/// A chain of which most commands are about an end; some calls, the rest as written, and a look at what
/// was posted.
pub fn chain_about_ends(play: &mut Play) -> Played {
    lay_ground(play, ground_about_ends);
    let aimed = aimed_at(&mut play.rng, play.sides.ground());
    let ground = play.sides.ground();
    let mut chain = random_chain(&mut play.rng, ground.memory_bytes(), &ground.units[aimed].drive);
    spread(&mut play.rng, ground, aimed, &mut chain);
    for (_, block) in &mut chain.blocks {
        if play.rng.percent(80) {
            *block = about_an_end(&mut play.rng, ground, *block);
        }
    }
    put_chain(play, chain);
    leave_old_records(play);
    let start = play.chain.start as u32;
    walk(play, start)?;
    for _ in 0..play.rng.between(1, 4) {
        act(play)?;
    }
    play.call(Call::Written { budget: u64::MAX, commands: play.commands, lent: 32 })?;
    for (at, _) in play.chain.blocks.clone().iter().take(3) {
        play.call(Call::View { at: *at as u32 })?;
    }
    Ok(())
}

/// What lay in the table before the walk: it must not show in the records of the walk's own commands, and
/// must stay in the others.
fn leave_old_records(play: &mut Play) {
    for place in 0..play.rng.below(8) as usize {
        let rng = &mut play.rng;
        let old = Record {
            fitted: rng.byte(),
            unit: rng.byte(),
            unused: std::array::from_fn(|_| rng.next() as u16),
            ..Record::default()
        };
        play.say(|| format!("record {place} becomes {old:?}"));
        play.sides.set_record(place, old);
    }
}

/// A drive of some hundred sectors, or a small one; memory of any length, at times the longest.
fn ground_about_ends(rng: &mut Rng, script: &mut Script) {
    let wanted = rng.between(250, 320);
    let large = if rng.percent(60) { some_drive_of(rng, wanted) } else { None };
    let drive = large.unwrap_or_else(|| small_drive(rng));
    let length = match rng.below(5) {
        0 => 65_536 - rng.below(2),
        1 => SECTOR_BYTES * rng.between(1, 12),
        _ => rng.between(600, 5_000),
    };
    script.say(Line::Drive(Drive { protected: rng.percent(15), ..drive }));
    script.say(Line::Memory { length, a: rng.byte(), b: rng.byte() });
    fill_image(rng, script);
}

/// The same command, made a transfer about one end or about both; or on a cylinder above its maximum.
fn about_an_end(rng: &mut Rng, ground: &Board, block: Block) -> Block {
    let command = rng.one_of(&[1, 2, 2]);
    let block = block.command(command).subfunction(0);
    let drive = ground.drive_of(unit_of(&block));
    match rng.below(11) {
        0..=4 => about_drive_end(rng, &drive, block),
        5..=7 => about_memory_end(rng, ground, block),
        8 | 9 => {
            let late = about_memory_end(rng, ground, block);
            about_drive_end(rng, &drive, late)
        }
        _ => {
            let cylinder = u64::from(drive.max_cylinder) + rng.between(1, 3);
            let (head, sector) = (rng.below(3), rng.below(4));
            block.at(cylinder.min(0xFFFF), head, sector).count(rng.one_of(&[1, 2, 300, 0xFFFF]))
        }
    }
}

/// So many sectors before the end of the drive, with a count of as many, of one more or of far more. A
/// list stays as it is.
fn about_drive_end(rng: &mut Rng, drive: &Drive, block: Block) -> Block {
    let all = drive.number_of_sectors();
    let left = match rng.below(4) {
        0 | 1 => rng.one_of(&[1, 1, 2, 254, 255, 255, 256, 256, 257]),
        2 => all,
        _ => rng.between(1, all),
    };
    let left = left.min(all);
    let place = counted_to(drive, all - left).expect("the drive has this sector");
    let count = rng.one_of(&[left, left + 1, left + 1, 2 * left, 2 * left + 1, 0xFFFF]);
    block.at(place.cylinder, place.head, place.sector).count(count)
}

/// Data in one piece from so many sectors before the end of memory on, or some bytes to either side; now
/// and then from the end itself, or from past it.
fn about_memory_end(rng: &mut Rng, ground: &Board, block: Block) -> Block {
    let memory = ground.memory_bytes();
    let most = memory / SECTOR_BYTES;
    let left = match rng.below(3) {
        0 => most,
        1 => rng.between(0, most.min(2)),
        _ => rng.between(0, most),
    };
    let start = memory - SECTOR_BYTES * left;
    let address = match rng.below(8) {
        0 => rng.one_of(&[memory, memory + 1, memory + 512, (1 << 16) + start, 0xFFFF_FFFF]),
        1 => start + rng.below(SECTOR_BYTES),
        2 => start.saturating_sub(1),
        3 | 4 => start + 1,
        _ => start,
    };
    let count = rng.one_of(&[left, left + 1, left + 1, 2 * left + 1]).max(1);
    let plain = block.byte(0, block.bytes[0] & !SGM);
    plain.at(0, 0, 0).count(count).data(address)
}
