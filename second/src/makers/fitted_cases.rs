//! Random cases about how much would have fitted: chains on drives of a few
//! hundred sectors, with commands near and past the ends of drive and memory, and
//! IOPBs that are changed between the walk and the close.

use crate::board::SECTOR_BYTES;
use crate::drive::Drive;
use crate::makers::block::Block;
use crate::makers::calls::{act, call_on_table, walk};
use crate::makers::cases::lay;
use crate::makers::chain::{random_chain, Chain};
use crate::makers::ground::{fill_image, small_drive};
use crate::makers::rng::Rng;
use crate::makers::script::Script;
use crate::makers::spoil::FITTED_TO_TRY;
use crate::makers::wide_drives::some_drive_of;
use crate::makers::ALL_32_BITS;
use crate::place::counted_to;
use crate::trial::line::Line;
use crate::trial::state::State;

const SGM: u8 = 0x10;
/// The field of a record that says how many sectors would have fitted.
const FITTED_FIELD: u64 = 8;

/// A chain with most of its commands near an end; calls, changes, and the rest.
pub fn fitted_case(rng: &mut Rng, script: &mut Script) {
    ground(rng, script);
    let mut chain = random_chain(rng, script.state.board.memory_bytes(), script.state.drive());
    for (_, block) in &mut chain.blocks {
        if rng.percent(75) {
            *block = near_an_end(rng, &script.state, *block);
        }
    }
    lay(rng, script, &chain);
    walk(rng, script, chain.start);
    for _ in 0..rng.between(1, 3) {
        change(rng, script, &chain);
        call_on_table(rng, script);
    }
    if rng.percent(40) {
        act(rng, script, &chain);
    }
    script.say(Line::Written(u64::MAX));
    for (address, _) in chain.blocks.iter().take(6) {
        script.say(Line::Fields(*address));
    }
}

/// A drive on which 255 sectors and more would fit, or a small one; and memory
/// of any length, at times the largest.
fn ground(rng: &mut Rng, script: &mut Script) {
    let drive = if rng.percent(60) {
        let sectors = rng.between(254, 300);
        some_drive_of(rng, sectors).expect("so few sectors lie on one cylinder")
    } else {
        small_drive(rng)
    };
    let length = match rng.below(4) {
        0 => 65_536 - rng.below(3),
        1 => SECTOR_BYTES * rng.between(2, 12),
        _ => rng.between(600, 6_000),
    };
    script.say(Line::Drive(Drive { protected: rng.percent(15), ..drive }));
    script.say(Line::Memory { length, a: rng.byte(), b: rng.byte() });
    fill_image(rng, script);
}

/// A command near the end of the drive, of memory or of both, on one side or the
/// other; or on a cylinder above its maximum. A list that it has stays, but at
/// the end of memory.
fn near_an_end(rng: &mut Rng, state: &State, block: Block) -> Block {
    match rng.below(10) {
        0..=4 => near_end_of_drive(rng, state, block),
        5..=7 => near_end_of_memory(rng, state, block),
        8 => {
            let past = near_end_of_memory(rng, state, block);
            near_end_of_drive(rng, state, past)
        }
        _ => {
            let cylinder = u64::from(state.drive().max_cylinder) + rng.between(1, 3);
            let (head, sector) = (rng.below(4), u64::from(rng.byte()));
            block.at(cylinder.min(65_535), head, sector).count(rng.one_of(&[1, 40, 65_535]))
        }
    }
}

/// So many sectors before the end of the drive, often about 255, with a count of
/// so many, of one more or of far more.
fn near_end_of_drive(rng: &mut Rng, state: &State, block: Block) -> Block {
    let all = state.drive().number_of_sectors();
    let wanted = match rng.below(4) {
        0 | 1 => rng.one_of(&[1, 2, 253, 254, 255, 255, 256, 256, 257]),
        2 => all,
        _ => rng.between(1, all),
    };
    let sectors = wanted.min(all);
    let place = counted_to(state.drive(), all - sectors).expect("it is on the drive");
    let count = rng.one_of(&[sectors, sectors + 1, sectors + 1, 2 * sectors + 1, 65_535]);
    block.at(place.cylinder, place.head, place.sector).count(count)
}

/// So many whole sectors of memory after the data address, or some bytes fewer
/// or more; at times an address at the end or past it.
fn near_end_of_memory(rng: &mut Rng, state: &State, block: Block) -> Block {
    let memory = state.board.memory_bytes();
    let most = memory / SECTOR_BYTES;
    let sectors = if rng.once_in(4) { most } else { rng.between(0, most) };
    let start = memory - SECTOR_BYTES * sectors;
    let far = [memory, memory + 1, memory + 512, 0x1_0000 + start, ALL_32_BITS];
    let address = match rng.below(6) {
        0 => rng.one_of(&far),
        1 => start + rng.below(SECTOR_BYTES),
        2 => start.saturating_sub(1),
        3 => start + 1,
        _ => start,
    };
    let count = rng.one_of(&[sectors, sectors + 1, sectors + 1, sectors + 2]).max(1);
    let listless = block.byte(0, block.bytes[0] & !SGM);
    listless.at(0, 0, 0).count(count).data(address)
}

/// Changes something that must not matter any more, or a number that is posted
/// as it is.
fn change(rng: &mut Rng, script: &mut Script, chain: &Chain) {
    if chain.blocks.is_empty() {
        return;
    }
    let place = rng.below(chain.blocks.len() as u64);
    let address = chain.blocks[place as usize].0;
    match rng.below(6) {
        0 => script.put(address + 0x03, &[rng.byte()]),
        1 => script.put(address + 0x08, &[0, rng.byte()]),
        2 => script.put(address + 0x0A, &[0, rng.byte(), 0, rng.byte()]),
        3 => script.put(address + 0x10, &[0, 0, rng.byte(), rng.byte()]),
        4 => script.spoil(place, FITTED_FIELD, rng.one_of(&FITTED_TO_TRY)),
        _ => {}
    }
}
