//! Units for random chains: which are there, with what drives and images, and what is lent for those
//! that are not; and chains whose commands are on several units.

use crate::declared::UNITS;
use crate::differ::play::Play;
use second::board::{Board, Unit, SECTOR_BYTES};
use second::drive::Drive;
use second::makers::block::Block;
use second::makers::chain::Chain;
use second::makers::ground::{any_drive, small_drive, with_last_above};
use second::makers::rng::Rng;
use second::place::counted_to;

/// Gives the board units 1 to 3, each there or absent; now and then unit 0 is absent too. All sixteen
/// ways come up.
pub fn add_units(rng: &mut Rng, board: &mut Board) {
    let first = board.units[0].drive;
    for (number, unit) in board.units.iter_mut().enumerate() {
        if number > 0 {
            *unit = right_unit(rng, first);
        }
        unit.there = rng.percent(if number == 0 { 88 } else { 55 });
        // what is lent for an absent unit is as good as any, or anything
        if !unit.there && rng.percent(60) {
            *unit = anything(rng);
        }
    }
}

/// A small drive, at times like the first unit's, and its image; in a few the last head is too long.
pub fn right_unit(rng: &mut Rng, first: Drive) -> Unit {
    let like_first = first.number_of_sectors() <= 400 && rng.percent(30);
    let drive =
        if like_first { Drive { protected: rng.percent(12), ..first } } else { small_drive(rng) };
    let drive = if rng.percent(1) { with_last_above(rng, drive) } else { drive };
    let image = filled(rng, SECTOR_BYTES * drive.number_of_sectors());
    Unit::with(drive, image)
}

/// A drive of any size, its last head too long in some, and an image of any length.
fn anything(rng: &mut Rng) -> Unit {
    let drive = Drive { protected: rng.percent(50), ..any_drive(rng) };
    let drive = if rng.percent(25) { with_last_above(rng, drive) } else { drive };
    let length = rng.one_of(&[0, 1, 511, 512, 513, 1_024, 4_096]);
    Unit { there: false, drive, image: filled(rng, length) }
}

/// Bytes by which sectors differ from each other, and from those of another image.
fn filled(rng: &mut Rng, length: u64) -> Vec<u8> {
    let (a, b, c) = (u64::from(rng.byte()), u64::from(rng.byte() | 1), u64::from(rng.byte()));
    (0..length).map(|j| (a + b * (j / SECTOR_BYTES) + c * (j % SECTOR_BYTES)) as u8).collect()
}

fn those_there(ground: &Board) -> Vec<usize> {
    (0..UNITS).filter(|unit| ground.units[*unit].there).collect()
}

/// A unit of 0 to 3, mostly one that is there.
pub fn some_unit(rng: &mut Rng, ground: &Board) -> usize {
    let there = those_there(ground);
    if there.is_empty() || rng.percent(12) {
        return rng.below(UNITS as u64) as usize;
    }
    rng.one_of(&there)
}

/// Any unit that a byte can name, mostly one that is there.
pub fn any_unit(rng: &mut Rng, ground: &Board) -> u8 {
    match rng.below(10) {
        0 => rng.between(4, 7) as u8,
        1 => rng.one_of(&[8, 64, 128, 252, 255]),
        2 => rng.below(UNITS as u64) as u8,
        _ => some_unit(rng, ground) as u8,
    }
}

/// The unit of some record in use, where that is one of 0 to 3.
pub fn used_unit(play: &mut Play) -> usize {
    let place = play.rng.below(play.commands.clamp(1, 32) as u64) as usize;
    let named = usize::from(play.sides.table()[place].unit);
    if named < UNITS && play.rng.percent(80) {
        return named;
    }
    some_unit(&mut play.rng, play.sides.ground())
}

/// The unit for whose drive a chain is made, before it is spread.
pub fn aimed_at(rng: &mut Rng, ground: &Board) -> usize {
    let there = those_there(ground);
    if there.is_empty() {
        0
    } else {
        rng.one_of(&there)
    }
}

/// The unit that an IOPB names.
pub fn unit_of(block: &Block) -> u64 {
    u64::from(block.bytes[5] & 7)
}

/// Spreads a chain that was made for the drive of one unit over all units. Where unit 0 alone is there,
/// it stays as it is. Commands that name another unit by mistake go on naming it.
pub fn spread(rng: &mut Rng, ground: &Board, aimed: usize, chain: &mut Chain) {
    if those_there(ground) == [0] {
        return;
    }
    let others = rng.one_of(&[0, 40, 80]);
    for (_, block) in chain.blocks.iter_mut().filter(|(_, block)| unit_of(block) == 0) {
        let unit = match rng.below(100) {
            0..=2 => rng.between(4, 7) as usize,
            _ if rng.percent(others) => some_unit(rng, ground),
            _ => aimed,
        };
        *block = block.unit(unit as u8);
        if let Some(to) = ground.units.get(unit).filter(|_| unit != aimed) {
            *block = moved(rng, &ground.units[aimed].drive, &to.drive, *block);
        }
    }
}

/// The command on another drive: mostly at the sector of the same number, if the drive has it. Where it
/// names a place that the first drive has not, that stays.
fn moved(rng: &mut Rng, from: &Drive, to: &Drive, block: Block) -> Block {
    let b = &block.bytes;
    let cylinder = u64::from(u16::from_be_bytes([b[0x0A], b[0x0B]]));
    let (head, sector) = (u64::from(b[0x0C]), u64::from(b[0x0D]));
    let on_drive =
        cylinder < from.cylinders() && head < from.heads() && sector <= from.max_sector_of(head);
    if !on_drive {
        return block;
    }
    let (same, sectors) = (from.sector_number(cylinder, head, sector), to.number_of_sectors());
    let number = if same < sectors && rng.percent(75) { same } else { rng.below(sectors) };
    let place = counted_to(to, number).expect("the drive has this sector");
    block.at(place.cylinder, place.head, place.sector)
}
