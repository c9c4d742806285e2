//! Tables in which any record says that so many sectors would have fitted: the
//! close posts it whatever the code, number 9 does not look at it, and no call
//! but a walk changes it.

use crate::makers::block::Block;
use crate::makers::edges::fitted::{from_end, BENCH, MEMORY};
use crate::makers::edges::lists::list_of;
use crate::makers::edges::wide_ends::case_on;
use crate::makers::edges::{image, memory, READ, WRITE};
use crate::makers::lines::chain_of;
use crate::makers::script::Script;
use crate::makers::ALL_32_BITS;
use crate::range::Range;
use crate::record::Record;
use crate::trial::line::Line;

/// The field of a record that these cases are about.
const FITTED: u64 = 8;
/// Where the IOPB of the first record lies; the others follow, 32 bytes apart.
const FIRST: u32 = 0x40;
/// The ways in which a table is run to its end.
const RUNS: u64 = 4;
/// Nobody's number: it stays in the records that no call may change.
const OTHER: u8 = 77;

/// All the cases of this file.
pub fn all(script: &mut Script) {
    every_kind(script);
    each_its_own(script);
    beside_other_faults(script);
    before_the_close(script);
    over_a_table(script);
    refused_walks(script);
    spoiled_after_the_walk(script);
}

/// One record of each kind: transfers with code 00, without a list and with one;
/// commands that move nothing with code 00; failing ones of many codes, with a
/// list too.
fn kinds() -> Vec<Record> {
    let right = Record { data: 0x400, sector: 8, count: 2, ..Record::default() };
    let mut listed = right;
    listed.ranges = 2;
    listed.list[..2].copy_from_slice(&list_of(&[(0x900, 600), (0xC00, 424)]));
    let mut kinds = vec![
        Record { byte0: READ, ..right },
        Record { byte0: WRITE, data: 0xA00, sector: 20, ..right },
        Record { byte0: 0x10 | READ, sector: 12, ..listed },
        Record { byte0: 0x10 | WRITE, sector: 28, ..listed },
        Record { byte0: 0, ..right },
        Record { byte0: 0xE7, ..right },
        Record { byte0: 0, ..listed },
    ];
    for code in [0x10, 0x4B, 0x90, 0x1E, 0x13, 0x14, 0x42, 0x11, 0x12, 0xFF] {
        kinds.push(Record { byte0: READ, code, ..right });
    }
    for code in [0x10, 0x4B, 0x1C, 0x1F] {
        kinds.push(Record { byte0: 0x10 | WRITE, code, ..listed });
    }
    kinds
}

/// A case with these records in use, and one after them that is not.
fn table_of(script: &mut Script, records: &[Record]) {
    script.case();
    script.drive(1, 1, 7, false);
    script.say_all([memory(MEMORY), image(32)]);
    for (k, record) in records.iter().enumerate() {
        script.record(k as u64, Record { iopb: FIRST + 32 * k as u32, ..*record });
    }
    let records = records.len() as u64;
    script.record(records, Record { fitted: OTHER, byte0: READ, ..Record::default() });
    script.record(39, Record { fitted: OTHER, ..Record::default() });
    script.say(Line::Commands(records));
}

/// Runs a table to its end in one of the ways, and shows every status.
fn run(script: &mut Script, way: u64) {
    let records = script.state.commands;
    match way {
        0 => {
            script.say_all([Line::Written(3), Line::Written(u64::MAX)]);
        }
        1 => {
            let places = (0..records).flat_map(|place| [place as u8, place as u8]);
            script.say(Line::Picks(places.collect()));
        }
        2 => script.say_all((0..records).flat_map(|place| [place, place]).map(Line::Pick)),
        _ => script.say_all((0..records).flat_map(|place| [place, place]).map(Line::LentPick)),
    }
    script.say_all((0..records).map(|k| Line::Fields(u64::from(FIRST) + 32 * k)));
}

/// All kinds with one number, for numbers at both ends of a byte and between.
fn every_kind(script: &mut Script) {
    for (k, fitted) in [0, 1, OTHER, 255].into_iter().enumerate() {
        let records: Vec<Record> =
            kinds().into_iter().map(|record| Record { fitted, ..record }).collect();
        for way in [k as u64 % RUNS, (k as u64 + 1) % RUNS] {
            table_of(script, &records);
            script.say(Line::Steps);
            run(script, way);
            // All are finished now, and none of the numbers is asked for.
            script.say_all([Line::Pick(0), Line::LentPick(20), Line::Written(1)]);
        }
    }
}

/// Another number in each record, so that none is taken for another's.
fn each_its_own(script: &mut Script) {
    for way in 0..RUNS {
        let records: Vec<Record> = kinds()
            .into_iter()
            .enumerate()
            .map(|(k, record)| Record { fitted: 200 + 2 * k as u8, ..record })
            .collect();
        table_of(script, &records);
        run(script, way);
    }
}

/// A number beside something that gives 9 or 1: nothing is changed, and once the
/// other thing is put right the number is posted.
fn beside_other_faults(script: &mut Script) {
    let record = Record { byte0: READ, data: 0x400, sector: 8, count: 1, ..Record::default() };
    for (field, wrong, right) in [(1, 0xE01, 0x400), (2, 32, 8), (3, 2, 0), (4, 0, 1), (7, 33, 0)] {
        table_of(script, &[Record { fitted: 255, ..record }]);
        script.spoil(0, field, wrong);
        script.say_all([Line::Pick(0), Line::LentPick(0), Line::Written(9)]);
        script.picks(&[0]);
        script.spoil(0, field, right);
        run(script, 0);
    }
    for wrong in [image(31), memory(65_537), Line::Commands(33)] {
        table_of(script, &[Record { fitted: 255, ..record }]);
        script.say_all([wrong, Line::Pick(0), Line::LentPick(0), Line::Written(9)]);
        script.say_all([image(32), memory(MEMORY), Line::Commands(1)]);
        run(script, 2);
    }
}

/// The number becomes another between the steps of one command: the one at the
/// close is posted, and nothing before it.
fn before_the_close(script: &mut Script) {
    let numbers: [(u8, u8); 4] = [(0, 9), (9, 0), (1, 255), (255, 1)];
    for (first, second) in numbers {
        for kind in [0, 1, 2, 3] {
            table_of(script, &[Record { fitted: first, ..kinds()[kind] }]);
            script.say_all([Line::Pick(0), Line::Fields(u64::from(FIRST))]);
            script.spoil(0, FITTED, u64::from(second));
            script.say_all([Line::Pick(0), Line::Fields(u64::from(FIRST))]);
            script.spoil(0, FITTED, u64::from(first));
            script.say_all([Line::Pick(0), Line::Fields(u64::from(FIRST))]);
        }
    }
}

/// A table whose records all have a number, with something of everything.
fn full_table(script: &mut Script) {
    let junk = Record { ranges: 3, fitted: OTHER, byte0: WRITE, code: 0x4B, ..Record::default() };
    for place in [0, 2, 31, 32, 39] {
        script.record(place, junk);
    }
    script.record(1, Record { list: [Range { address: 9, length: 9 }; 32], ..junk });
}

/// Accepted walks over such a table: their own records get what is right, and
/// the others keep theirs.
fn over_a_table(script: &mut Script) {
    let fit = Block::new(READ).count(1).data(0x400);
    let past = from_end(&BENCH, 3, 9);
    for block in [fit, past, fit.count(9), past.at(2, 0, 0), past.count(0), Block::new(0)] {
        for lent in [false, true] {
            case_on(script, BENCH, MEMORY);
            full_table(script);
            script.block(0, block.next(32));
            script.block(32, from_end(&BENCH, 5, 6));
            script.say(if lent { Line::LentWalk(0) } else { Line::Walk(0) });
            script.say_all([Line::Written(u64::MAX), Line::Fields(0), Line::Fields(32)]);
        }
    }
}

/// Refused walks, each after a command with a number: all records keep theirs.
fn refused_walks(script: &mut Script) {
    let past = from_end(&BENCH, 3, 9);
    for next in [0, 0x1000, 0xFE4, 16] {
        case_on(script, BENCH, MEMORY);
        full_table(script);
        script.block(0, past.next(next));
        script.say_all([Line::Walk(0), Line::LentWalk(0), Line::Walk(1), Line::Written(9)]);
    }
    case_on(script, BENCH, MEMORY);
    full_table(script);
    chain_of(script, 33);
    script.block(0, past.next(32));
    script.say_all([Line::Walk(0), Line::LentWalk(0), Line::Lent(31), Line::LentWalk(0)]);
    script.say_all([image(33), Line::Walk(0), image(32), Line::Walk(32), Line::Written(9)]);
}

/// A chain of all that can tell a number or cannot, walked, and then one number
/// spoiled: no call is refused for it, and it is posted.
fn spoiled_after_the_walk(script: &mut Script) {
    let blocks = [
        from_end(&BENCH, 3, 3),
        from_end(&BENCH, 3, 9),
        Block::new(WRITE).count(9).data(0x400),
        Block::new(0),
        Block::new(READ).at(2, 0, 0).count(1),
    ];
    for place in 0..5 {
        for value in [0, 1, OTHER, 255] {
            case_on(script, BENCH, MEMORY);
            for (k, block) in blocks.into_iter().enumerate() {
                let at = u64::from(FIRST) + 32 * k as u64;
                script.block(at, if k < 4 { block.next(at + 32) } else { block });
            }
            script.say_all([Line::Walk(u64::from(FIRST)), Line::Pick(0)]);
            script.spoil(place, FITTED, u64::from(value));
            script.say_all([Line::Steps, Line::Pick(place), Line::LentPick(4), Line::Pick(5)]);
            script.picks(&[1, 2, 0, 9]);
            script.say(Line::LentPick(ALL_32_BITS));
            run(script, 0);
        }
    }
}
