//! Chains over several units whose commands name the same sectors and share no byte of memory, so that
//! the units alone say which of them wait for each other; picked from the last to the first.

use crate::declared::UNITS;
use crate::differ::acts::{act, look_around, walk};
use crate::differ::call::Call;
use crate::differ::make::put_chain;
use crate::differ::play::{Play, Played};
use crate::differ::units::{any_unit, right_unit, some_unit};
use second::board::{Board, SECTOR_BYTES};
use second::makers::block::Block;
use second::makers::chain::Chain;
use second::makers::ground::small_drive;
use second::makers::rng::Rng;
use second::place::counted_to;

/// The most commands of such a chain, and the most sectors that each moves.
const COMMANDS: u64 = 10;
const SECTORS: u64 = 2;
const DATA: u64 = 32 * COMMANDS;

pub fn chain_over_units(play: &mut Play) -> Played {
    let board = ground_over_units(&mut play.rng);
    play.say(|| {
        format!("units: {:?}", board.units.each_ref().map(|unit| (unit.there, unit.drive)))
    });
    play.sides.set_ground(board);
    let chain = over_units(&mut play.rng, play.sides.ground());
    put_chain(play, chain);
    walk(play, 0)?;
    pick_backwards(play)?;
    for _ in 0..play.rng.below(3) {
        act(play)?;
    }
    play.call(Call::Written { budget: u64::MAX, commands: play.commands, lent: 32 })?;
    look_around(play)
}

/// Mostly several units that are there, some of them with the drive of the first.
fn ground_over_units(rng: &mut Rng) -> Board {
    let first = small_drive(rng);
    let mut board = Board::default();
    let length = DATA + SECTOR_BYTES * SECTORS * COMMANDS;
    board.memory = rng.bytes(length);
    for number in 0..UNITS {
        board.units[number] = right_unit(rng, first);
        board.units[number].there = rng.percent(85);
    }
    board
}

/// One to ten commands, one after another in memory, and so their data.
fn over_units(rng: &mut Rng, ground: &Board) -> Chain {
    let commands = rng.between(2, COMMANDS);
    let mut blocks = Vec::new();
    for place in 0..commands {
        let unit =
            if rng.percent(5) { any_unit(rng, ground) & 7 } else { some_unit(rng, ground) as u8 };
        let drive = ground.drive_of(unit.into());
        let sector = rng.one_of(&[0, 0, 0, 1, 1, 2]).min(drive.number_of_sectors() - 1);
        let first = counted_to(&drive, sector).expect("the drive has this sector");
        let left = drive.number_of_sectors() - sector;
        let count = rng.between(1, SECTORS.min(left));
        let command = rng.one_of(&[1, 1, 2, 2, 2, 0]);
        let block = Block::random(rng, command)
            .unit(unit)
            .count(count)
            .at(first.cylinder, first.head, first.sector)
            .data(DATA + SECTOR_BYTES * SECTORS * place);
        let last = place + 1 == commands;
        blocks.push((32 * place, if last { block } else { block.next(32 * (place + 1)) }));
    }
    Chain { start: 0, lists: Vec::new(), blocks }
}

/// Every place once, from the last to the first: one by one, or all in a list.
fn pick_backwards(play: &mut Play) -> Played {
    let (commands, lent) = (play.commands, 32);
    if play.rng.percent(30) {
        let picks = (0..commands as u8).rev().collect();
        play.call(Call::Picks { picks, commands, lent })?;
        return Ok(());
    }
    for place in (0..commands).rev() {
        play.call(Call::Pick { place, commands, lent })?;
    }
    Ok(())
}
