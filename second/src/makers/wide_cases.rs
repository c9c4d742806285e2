//! Random cases at the edges of 16 and of 32 bits: places on drives of about
//! that size, images that some bits of a drive's size would leave, and commands
//! and records whose sums would be small again once they are cut off.

use crate::board::SECTOR_BYTES;
use crate::drive::Drive;
use crate::makers::block::Block;
use crate::makers::calls::{call_on_table, calls_on_sizes, walk};
use crate::makers::cases::lay;
use crate::makers::chain::random_chain;
use crate::makers::ground::{fill_image, small_drive};
use crate::makers::rng::Rng;
use crate::makers::script::Script;
use crate::makers::wide_drives::{drive_of, edge_drive, tempting_drive};
use crate::makers::ALL_32_BITS;
use crate::record::Record;
use crate::trial::line::Line;

/// One case of some kind. The largest images come seldom, being slow.
pub fn wide_case(rng: &mut Rng, script: &mut Script) {
    match rng.below(30) {
        0 => far_case(rng, script, 32_768),
        1..=7 => places_case(rng, script),
        8..=15 => sizes_case(rng, script),
        16 | 17 => empty_case(rng, script),
        18..=23 => {
            let sectors = rng.between(130, 600);
            far_case(rng, script, sectors);
        }
        _ => table_case(rng, script),
    }
}

fn places_case(rng: &mut Rng, script: &mut Script) {
    for _ in 0..rng.between(1, 3) {
        let drive = edge_drive(rng);
        script.say(Line::Drive(drive));
        for _ in 0..rng.between(2, 5) {
            script.say(Line::Place(edge_number(rng, &drive)));
        }
    }
}

/// A number beside an end of the drive, beside a power of two or beside a
/// cylinder, or any of the drive's.
fn edge_number(rng: &mut Rng, drive: &Drive) -> u64 {
    let sectors = drive.number_of_sectors();
    let edge = match rng.below(6) {
        0 | 1 => sectors,
        2 => 1 << rng.one_of(&[8, 16, 24, 31, 32]),
        3 => drive.sectors_per_cylinder() * rng.between(1, drive.cylinders()),
        4 => rng.below(1 << 31) + (1 << 31),
        _ => rng.between(1, sectors),
    };
    (edge - rng.below(2)).min(ALL_32_BITS)
}

/// A drive with its image; then another, far larger, that some bits of its size
/// would leave this image for; then the right one again.
fn sizes_case(rng: &mut Rng, script: &mut Script) {
    let right = small_drive(rng);
    script.say(Line::Drive(right));
    script.say(Line::Memory { length: rng.between(600, 3_000), a: rng.byte(), b: rng.byte() });
    fill_image(rng, script);
    let chain = random_chain(rng, script.state.board.memory_bytes(), script.state.drive());
    lay(rng, script, &chain);
    walk(rng, script, chain.start);
    for _ in 0..rng.between(1, 2) {
        let wrong = tempting_drive(rng, right.number_of_sectors());
        script.say(Line::Drive(Drive { protected: right.protected, ..wrong }));
        calls_on_sizes(rng, script);
        let place = rng.below(2);
        script.say(if rng.percent(50) { Line::Pick(place) } else { Line::LentPick(place) });
        script.say_all([Line::look_0(rng.below(40)), Line::Drive(right)]);
        calls_on_sizes(rng, script);
        // A number of the right drive, but for one bit.
        let number = rng.below(right.number_of_sectors()) + (1 << rng.between(16, 31));
        script.say_all([Line::look_0(number), Line::Place(number)]);
    }
    script.say(if rng.percent(50) { Line::Walk(chain.start) } else { Line::LentWalk(chain.start) });
    script.say(Line::Written(u64::MAX));
}

/// No image at all, and a drive of which some bits leave no sector or no byte.
fn empty_case(rng: &mut Rng, script: &mut Script) {
    let drive = if rng.percent(40) {
        Drive::with_equal_heads(65_535, 255, 255)
    } else {
        tempting_drive(rng, 0)
    };
    script.say(Line::Drive(drive));
    script.say(Line::Memory { length: rng.between(30, 600), a: rng.byte(), b: 0 });
    calls_on_sizes(rng, script);
    script.say_all([Line::Walk(0), Line::LentWalk(0), Line::look_0(0), Line::Written(1)]);
}

/// A chain on a drive of so many sectors, most of its commands with something
/// at an edge. The largest memory, or somewhat less.
fn far_case(rng: &mut Rng, script: &mut Script, sectors: u64) {
    let drive = if sectors == 32_768 {
        let (head, sector) = rng.one_of(&[(127, 255), (127, 255), (255, 127)]);
        Drive::with_equal_heads(0, head, sector)
    } else {
        drive_of(sectors).expect("so few sectors lie on one cylinder")
    };
    let length = 65_536 - rng.one_of(&[0, 0, 1, 100]);
    script.say(Line::Drive(Drive { protected: rng.percent(10), ..drive }));
    script.say(Line::Memory { length, a: rng.byte(), b: rng.byte() });
    fill_image(rng, script);
    let mut chain = random_chain(rng, script.state.board.memory_bytes(), script.state.drive());
    for (_, block) in &mut chain.blocks {
        if rng.percent(60) {
            *block = at_an_edge(rng, script.state.drive(), *block);
        }
    }
    lay(rng, script, &chain);
    walk(rng, script, chain.start);
    script.say(Line::Steps);
    call_on_table(rng, script);
    script.say(Line::Written(u64::MAX));
}

/// A command with its place, its count, its data or its list at an edge.
fn at_an_edge(rng: &mut Rng, drive: &Drive, block: Block) -> Block {
    let sectors = drive.number_of_sectors();
    // Only on the largest drive does a record's sector go past 2 to the 31.
    let kind = if sectors == 32_768 && rng.percent(60) { 0 } else { rng.below(6) };
    match kind {
        0 | 1 => {
            let cylinder = rng.one_of(&[65_535, 65_535, 65_534]);
            block.at(cylinder, rng.between(120, 255), rng.between(0, 255))
        }
        2 => {
            // First sector + count is 65,536 or little more.
            let sector = rng.between(1, drive.max_sector_of(0));
            block.at(0, 0, sector).count((65_536 - sector + rng.below(3)).min(65_535))
        }
        3 => {
            // The bytes are 0, or those of one sector, in 16 bits or more.
            let count = 128 * rng.between(1, sectors / 128) + rng.below(2);
            block.at(0, 0, 0).count(count.min(sectors))
        }
        4 => {
            let count = rng.between(1, 130);
            let end = (1 << 32) + rng.below(600);
            block.at(0, 0, 0).count(count).data((end - SECTOR_BYTES * count).min(ALL_32_BITS))
        }
        _ => {
            let elements = rng.between(1, 32);
            let end = (1 << 32) + rng.below(12);
            block.at(0, 0, 0).count(1).list((end - 8 * elements).min(ALL_32_BITS), elements)
        }
    }
}

/// A table made by hand, with a record at an edge among others that are right;
/// calls, and then that record is put right.
fn table_case(rng: &mut Rng, script: &mut Script) {
    let sectors = rng.between(150, 400);
    let drive = drive_of(sectors).expect("so few sectors lie on one cylinder");
    script.say(Line::Drive(drive));
    script.say(Line::Memory { length: 65_536 - rng.below(2), a: rng.byte(), b: rng.byte() });
    fill_image(rng, script);
    let records = rng.between(1, 3);
    let wide = rng.below(records);
    for place in 0..records {
        let right = right_record(rng, place);
        let record = if place == wide { edge_record(rng, sectors, right) } else { right };
        script.record(place, record);
    }
    script.say(Line::Commands(records));
    for _ in 0..rng.between(2, 4) {
        call_on_table(rng, script);
    }
    let right = right_record(rng, wide);
    script.record(wide, right);
    script.say(Line::Written(u64::MAX));
}

fn right_record(rng: &mut Rng, place: u64) -> Record {
    Record {
        iopb: 32 * place as u32,
        data: rng.between(0x400, 0x4000) as u32,
        sector: rng.below(100) as u32,
        count: rng.between(1, 40) as u16,
        byte0: rng.one_of(&[1, 2]),
        ..Record::default()
    }
}

/// The end of its sectors, or of its data, at an edge or just past it.
fn edge_record(rng: &mut Rng, sectors: u64, right: Record) -> Record {
    let count = u64::from(right.count);
    let bytes = right.data_bytes();
    let sum = |edge: u64, past: u64, part: u64| (edge + past - part).min(ALL_32_BITS) as u32;
    match rng.below(6) {
        0 => Record { sector: sum(65_536, rng.below(sectors), count), ..right },
        1 | 2 => Record { sector: sum(1 << 32, rng.below(sectors), count), ..right },
        3 => Record { data: sum(1 << 32, rng.below(0x8000), bytes), ..right },
        4 => Record { sector: 0, count: 128 + rng.below(3) as u16, ..right },
        _ => Record { data: sum(65_536, rng.below(3), bytes), ..right },
    }
}
