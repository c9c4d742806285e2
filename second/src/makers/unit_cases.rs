//! Random cases about several drives: every way of units being there, drives of
//! different small sizes and marks, anything lent for absent units, chains and
//! tables that name all of them, and drives that change between the calls.

use crate::board::{Board, SECTOR_BYTES, UNITS};
use crate::drive::Drive;
use crate::makers::block::Block;
use crate::makers::calls::{act, call_on_table, walk};
use crate::makers::cases::{lay, random_record};
use crate::makers::chain::{number_in, random_chain, Chain};
use crate::makers::ground::{any_drive, small_drive};
use crate::makers::rng::Rng;
use crate::makers::script::Script;
use crate::makers::unit_calls::unit_act;
use crate::place::counted_to;
use crate::trial::line::Line;

/// A chain or a table over several units, calls and changes, and the rest.
pub fn unit_case(rng: &mut Rng, script: &mut Script) {
    unit_ground(rng, script);
    let chain = match rng.below(10) {
        0..=4 => walked(rng, script),
        5..=7 => twins(rng, script),
        _ => by_hand(rng, script),
    };
    for _ in 0..rng.between(2, 6) {
        choose(rng, script);
        // The other makers ask the chosen unit for its drive and its image.
        if script.state.unit().there && script.state.unit().image_right() && rng.percent(35) {
            act(rng, script, &chain);
        } else {
            unit_act(rng, script, &chain);
        }
    }
    script.say(Line::Written(u64::MAX));
    for (address, _) in chain.blocks.iter().take(6) {
        script.say(Line::Fields(*address));
    }
    let sector = rng.below(12);
    script.say_all((0..UNITS).map(|unit| Line::Look { unit, sector }));
}

/// Lends something for every unit, and says which are there.
fn unit_ground(rng: &mut Rng, script: &mut Script) {
    let length = if rng.once_in(4) { 4_096 } else { rng.between(900, 8_192) };
    script.say(Line::Memory { length, a: rng.byte(), b: rng.byte() });
    // Every way comes, those with several drives somewhat more often.
    let more = if rng.percent(30) { rng.below(1 << UNITS) } else { 0 };
    let way = rng.below(1 << UNITS) | more;
    let mut order: Vec<u64> = (0..UNITS).collect();
    rng.shuffle(&mut order);
    // In some cases all drives that are there are of one size.
    let common = small_drive(rng);
    let alike = rng.percent(40);
    for unit in order {
        script.say(Line::Unit(unit));
        let here = way >> unit & 1 == 1;
        if here {
            let drive = if alike { common } else { small_drive(rng) };
            let protected = rng.percent(25);
            fill(rng, script, Drive { protected, ..drive });
        } else {
            lend_anything(rng, script);
        }
        script.say(Line::There(here));
    }
}

/// A drive for the chosen unit, with an image of its size.
pub fn fill(rng: &mut Rng, script: &mut Script, drive: Drive) {
    let length = SECTOR_BYTES * drive.number_of_sectors();
    script.say(Line::Drive(drive));
    script.say(Line::Image { length, a: rng.byte(), b: rng.byte() | 1, c: rng.byte() });
}

/// Anything for the chosen unit: right, wrong, or nothing at all. Images over
/// their limit come seldom, being slow.
pub fn lend_anything(rng: &mut Rng, script: &mut Script) {
    let length = match rng.below(200) {
        0 => 16_777_728,
        1..=60 => 0,
        61..=120 => SECTOR_BYTES * rng.between(1, 40),
        121..=150 => rng.one_of(&[1, 511, 513, 1_025]),
        _ => {
            let (drive, protected) = (small_drive(rng), rng.percent(50));
            fill(rng, script, Drive { protected, ..drive });
            return;
        }
    };
    if rng.percent(75) {
        let (drive, protected) = (any_drive(rng), rng.percent(50));
        script.say(Line::Drive(Drive { protected, ..drive }));
    }
    script.say(Line::Image { length, a: rng.byte(), b: rng.byte(), c: rng.byte() });
}

/// Chooses a unit, mostly one that is there.
fn choose(rng: &mut Rng, script: &mut Script) {
    let unit = some_unit(rng, &script.state.board, 85, 0).min(UNITS - 1);
    script.say(Line::Unit(unit));
}

/// A unit that is there in so many of a hundred asks, if one is; above 3 in
/// `above` of a hundred; else any of 0 to 3.
pub fn some_unit(rng: &mut Rng, board: &Board, there: u64, above: u64) -> u64 {
    let units: Vec<u64> = (0..UNITS).filter(|unit| board.unit(*unit).is_some()).collect();
    if !units.is_empty() && rng.percent(there) {
        return rng.one_of(&units);
    }
    if rng.percent(above) {
        return rng.between(UNITS, 7);
    }
    rng.below(UNITS)
}

/// A chain for one of the drives, its commands spread over the units, walked.
fn walked(rng: &mut Rng, script: &mut Script) -> Chain {
    let base = some_unit(rng, &script.state.board, 100, 0);
    let drive = script.state.board.drive_of(base);
    let mut chain = random_chain(rng, script.state.board.memory_bytes(), &drive);
    let board = &script.state.board;
    for (_, block) in &mut chain.blocks {
        *block = on_some_unit(rng, board, &drive, *block);
    }
    lay(rng, script, &chain);
    walk(rng, script, chain.start);
    chain
}

/// A chain of commands on the first few sectors of every unit, their data mostly
/// apart: what one unit's command waits for is seldom another unit's. Picks from
/// the last to the first show who goes.
fn twins(rng: &mut Rng, script: &mut Script) -> Chain {
    let commands = rng.between(2, 8);
    // The data lies after the IOPBs, each command's in a place of its own.
    let first = 32 * commands;
    let places = (script.state.board.memory_bytes() - first) / SECTOR_BYTES;
    let mut blocks = Vec::new();
    for k in 0..commands {
        let unit = some_unit(rng, &script.state.board, 94, 50);
        let drive = script.state.board.drive_of(unit);
        let number = rng.below(3).min(drive.number_of_sectors() - 1);
        let from = counted_to(&drive, number).expect("it is on the drive");
        let place = if rng.percent(90) { k % places } else { rng.below(places) };
        let command = rng.one_of(&[0, 1, 1, 1, 2, 2, 2, 2]);
        let block = Block::random(rng, command)
            .unit(unit as u8)
            .at(from.cylinder, from.head, from.sector)
            .count(if rng.percent(80) { 1 } else { 2 })
            .data(first + SECTOR_BYTES * place);
        blocks.push((32 * k, if k + 1 < commands { block.next(32 * (k + 1)) } else { block }));
    }
    let chain = Chain { start: 0, blocks, ..Chain::default() };
    lay(rng, script, &chain);
    walk(rng, script, 0);
    let mut order: Vec<u8> = (0..commands as u8).rev().collect();
    if rng.percent(60) {
        rng.shuffle(&mut order);
    }
    script.say(Line::Picks(order));
    chain
}

/// The command on a unit, mostly on one that is there. Its sectors keep their
/// numbers where that unit has so many, so that units have the same numbers.
pub fn on_some_unit(rng: &mut Rng, board: &Board, base: &Drive, block: Block) -> Block {
    let unit = some_unit(rng, board, 88, 40);
    let drive = board.drive_of(unit);
    let block = block.unit(unit as u8);
    if rng.percent(15) {
        return past_own_end(rng, &drive, block);
    }
    let (cylinder, head, sector, count) = (
        number_in(&block, 0x0A, 2),
        number_in(&block, 0x0C, 1),
        number_in(&block, 0x0D, 1),
        number_in(&block, 0x08, 2),
    );
    // A place that was spoiled stays spoiled.
    let on_base = cylinder < base.cylinders()
        && head < base.heads()
        && sector < base.sectors_of(head)
        && count <= drive.number_of_sectors();
    if !on_base {
        return block;
    }
    let number = base.sector_number(cylinder, head, sector);
    let first = number.min(drive.number_of_sectors() - count);
    match counted_to(&drive, first) {
        Some(place) => block.at(place.cylinder, place.head, place.sector),
        None => block,
    }
}

/// A place or a count just past an edge of this drive, or at it.
fn past_own_end(rng: &mut Rng, drive: &Drive, block: Block) -> Block {
    let head = rng.below(drive.heads());
    let past = rng.below(2);
    let left = rng.between(1, drive.number_of_sectors());
    let from = counted_to(drive, drive.number_of_sectors() - left).expect("it is on the drive");
    match rng.below(4) {
        0 => block.at(u64::from(drive.max_cylinder) + past, 0, 0),
        1 => block.at(0, u64::from(drive.max_head) + past, 0),
        2 => block.at(0, head, drive.max_sector_of(head) + past),
        _ => block.at(from.cylinder, from.head, from.sector).count(left + past),
    }
}

/// A table made by hand, with records of several units.
fn by_hand(rng: &mut Rng, script: &mut Script) -> Chain {
    let memory = script.state.board.memory_bytes();
    let records = rng.between(1, 6);
    for place in 0..records {
        let unit = some_unit(rng, &script.state.board, 96, 30);
        let drive = script.state.board.drive_of(unit);
        let mut record = random_record(rng, memory, &drive);
        record.unit = unit as u8;
        if !record.is_transfer() && rng.percent(40) {
            record.unit = rng.byte();
        }
        script.record(place, record);
    }
    script.say(Line::Commands(records));
    if rng.percent(50) {
        call_on_table(rng, script);
    }
    Chain::default()
}
