//! Random cases: a board, a chain or a table made by hand, then calls; about one
//! in eight is about several drives.
//! The seed and the case's number decide everything.

use crate::board::SECTOR_BYTES;
use crate::drive::Drive;
use crate::makers::calls::{act, ask_places, call_on_table, look_around, random_address, walk};
use crate::makers::chain::{random_chain, Chain};
use crate::makers::fitted_cases::fitted_case;
use crate::makers::ground::{any_drive, ground, limit_ground};
use crate::makers::random_lists::cut;
use crate::makers::rng::Rng;
use crate::makers::script::Script;
use crate::makers::spoil::FITTED_TO_TRY;
use crate::makers::unit_cases::unit_case;
use crate::makers::wide_cases::wide_case;
use crate::makers::ALL_32_BITS;
use crate::range::Range;
use crate::record::Record;
use crate::trial::line::Line;

/// The lines of the n-th random case of a seed.
pub fn random_case(seed: u64, n: u64) -> Script {
    let mut rng = Rng::for_case(seed, n);
    let mut script = Script::default();
    script.say(Line::Case(n));
    match rng.below(100) {
        0..=64 => chain_case(&mut rng, &mut script),
        65..=77 => unit_case(&mut rng, &mut script),
        78..=82 => fitted_case(&mut rng, &mut script),
        83..=85 => wide_case(&mut rng, &mut script),
        86..=91 => table_case(&mut rng, &mut script),
        92..=94 => view_case(&mut rng, &mut script),
        95 | 96 => place_case(&mut rng, &mut script),
        _ => sizes_case(&mut rng, &mut script),
    }
    script
}

/// The usual case: a chain, a walk, steps in many ways, and looks.
fn chain_case(rng: &mut Rng, script: &mut Script) {
    ground(rng, script);
    let chain = random_chain(rng, script.state.board.memory_bytes(), script.state.drive());
    lay(rng, script, &chain);
    if rng.percent(12) {
        false_start(rng, script);
    }
    walk(rng, script, chain.start);
    // With no commands every act is much the same.
    let acts = if script.state.commands == 0 { 1 } else { rng.between(1, 6) };
    for _ in 0..acts {
        act(rng, script, &chain);
    }
    if rng.percent(75) {
        script.say(Line::Written(rng.one_of(&[u64::MAX, 100_000, 4_294_967_296])));
        look_around(rng, script, &chain);
    }
    if rng.percent(8) {
        // The same chain again, over whatever the data left of it.
        walk(rng, script, chain.start);
        script.say(Line::Written(rng.below(6)));
    }
}

/// Puts a few other bytes here and there, then the chain over them.
pub fn lay(rng: &mut Rng, script: &mut Script, chain: &Chain) {
    let memory = script.state.board.memory_bytes();
    for _ in 0..rng.below(4) {
        if memory >= 4 {
            script.say(Line::Put { address: rng.between(0, memory - 4), bytes: rng.bytes(4) });
        }
    }
    let image = script.state.unit().image.len() as u64;
    for _ in 0..rng.below(3) {
        if image >= 3 {
            script.say(Line::Disk { offset: rng.between(0, image - 3), bytes: rng.bytes(3) });
        }
    }
    for (address, bytes) in &chain.lists {
        script.put(*address, bytes);
    }
    for (address, block) in &chain.blocks {
        script.block(*address, *block);
    }
}

/// A walk from a wrong place.
fn false_start(rng: &mut Rng, script: &mut Script) {
    let memory = script.state.board.memory_bytes();
    let last = memory.saturating_sub(30);
    let start = match rng.below(6) {
        0 => 2 * rng.below(memory / 2 + 20) + 1,
        1 => last / 2 * 2 + 2,
        2 => rng.one_of(&[ALL_32_BITS, ALL_32_BITS - 1, ALL_32_BITS - 29, 65_536]),
        3 => last,
        _ => rng.between(0, last),
    };
    walk(rng, script, start);
}

/// A table made by hand, with no walk before.
fn table_case(rng: &mut Rng, script: &mut Script) {
    ground(rng, script);
    let records = if rng.once_in(8) { rng.between(7, 32) } else { rng.between(1, 6) };
    for place in 0..records {
        let record = random_record(rng, script.state.board.memory_bytes(), script.state.drive());
        script.record(place, record);
    }
    script.say(Line::Commands(records));
    let chain = Chain::default();
    for _ in 0..rng.between(2, 6) {
        act(rng, script, &chain);
    }
    script.say(Line::Written(u64::MAX));
}

/// A record that is mostly sound. IOPBs lie close to each other, so that
/// status bytes meet, which no walk would allow.
pub fn random_record(rng: &mut Rng, memory: u64, drive: &Drive) -> Record {
    let sectors = drive.number_of_sectors();
    let most = sectors.min(memory / SECTOR_BYTES).clamp(1, 4);
    let count = rng.between(1, most);
    let last_place = memory.saturating_sub(30);
    let command = rng.one_of(&[0, 1, 1, 2, 2, 2, 7]);
    let protected_write = command == 1 && drive.protected;
    let mut record = Record {
        iopb: rng.one_of(&[0, 2, 3, 4, 30, last_place]).min(last_place) as u32,
        data: rng.between(0, memory.saturating_sub(count * SECTOR_BYTES)) as u32,
        sector: rng.between(0, sectors - count) as u32,
        taken: 0,
        count: count as u16,
        byte0: (rng.byte() & 0xF0) | command,
        code: if protected_write || rng.once_in(6) { 0x90 } else { 0 },
        ..Record::default()
    };
    if rng.percent(45) {
        give_ranges(rng, memory, &mut record);
    }
    if !record.is_transfer() && rng.percent(50) {
        // Nothing of these is looked at where nothing moves.
        (record.data, record.sector) = (rng.next() as u32, rng.next() as u32);
        record.count = rng.next() as u16;
    }
    if rng.once_in(4) {
        record.taken = rng.between(0, record.steps()) as u32;
    }
    if rng.percent(40) {
        record.fitted = rng.one_of(&FITTED_TO_TRY) as u8;
    }
    record
}

/// Gives a record ranges that its bytes fit in, at odd addresses too. Those
/// past the last are anything, and so is its data address.
fn give_ranges(rng: &mut Rng, memory: u64, record: &mut Record) {
    let parts = rng.one_of(&[1, 2, 2, 3, 4, 5, 7, 32]);
    let lengths = cut(rng, record.data_bytes(), parts);
    record.ranges = lengths.len() as u16;
    for (range, length) in record.list.iter_mut().zip(lengths) {
        let address = rng.between(0, memory.saturating_sub(length));
        *range = Range { address: address as u32, length: length as u32 };
    }
    if parts < 32 && rng.once_in(4) {
        let junk = Range { address: rng.next() as u32, length: rng.below(65_536) as u32 };
        record.list[parts as usize] = junk;
    }
    record.data = rng.next() as u32;
}

/// Fields and views over random bytes in a small memory.
fn view_case(rng: &mut Rng, script: &mut Script) {
    let length = rng.between(0, 100);
    script.say(Line::Memory { length, a: rng.byte(), b: rng.byte() });
    if length > 0 {
        let bytes = rng.between(1, length.min(64));
        script.say(Line::Put { address: rng.between(0, length - bytes), bytes: rng.bytes(bytes) });
    }
    let chain = Chain::default();
    for _ in 0..rng.between(3, 10) {
        let near = random_address(rng, script, &chain);
        let address = if rng.percent(60) { rng.below(length + 2) } else { near };
        script.say(if rng.percent(50) { Line::Fields(address) } else { Line::View(address) });
    }
}

/// Places on drives of any size, with no memory and no image.
fn place_case(rng: &mut Rng, script: &mut Script) {
    for _ in 0..rng.between(1, 3) {
        script.say(Line::Drive(any_drive(rng)));
        for _ in 0..rng.between(1, 3) {
            ask_places(rng, script);
        }
    }
}

/// Sizes at and past the limits.
fn sizes_case(rng: &mut Rng, script: &mut Script) {
    limit_ground(rng, script);
    let chain = random_chain(rng, script.state.board.memory_bytes(), script.state.drive());
    lay(rng, script, &chain);
    walk(rng, script, chain.start);
    call_on_table(rng, script);
    look_around(rng, script, &chain);
    script.say(Line::Written(u64::MAX));
}
