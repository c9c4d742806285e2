//! Conflicts where they begin and end: data, sectors and status bytes beside
//! each other, and meeting in one.

use crate::makers::block::Block;
use crate::makers::edges::{READ, WRITE};
use crate::makers::script::Script;
use crate::record::Record;
use crate::trial::line::Line;

/// All the cases of this file.
pub fn all(script: &mut Script) {
    conflicts(script);
    status_conflicts(script);
}

/// Two commands, the later picked first: beside each other, then meeting.
fn pair(script: &mut Script, first: Block, second_at: u64, second: Block) {
    script.bench_case();
    // Memory with no two places alike near each other.
    script.say(Line::Memory { length: 4_096, a: 9, b: 5 });
    script.block(second_at, second);
    script.block(0, first.next(second_at));
    script.say_all([Line::Walk(0), Line::Pick(1), Line::Pick(0), Line::Pick(1)]);
    script.picks(&[1, 0, 1, 0]);
    script.say_all([Line::Written(9), Line::Fields(0), Line::Fields(second_at)]);
}

/// Every pair of transfers, then transfers and commands that move nothing.
fn conflicts(script: &mut Script) {
    let base = |command: u8, sector: u64, count: u64, data: u64| {
        Block::new(command).at(sector / 16, sector / 8 % 2, sector % 8).count(count).data(data)
    };
    for (one, other) in [(READ, READ), (READ, WRITE), (WRITE, READ), (WRITE, WRITE)] {
        let first = base(one, 10, 2, 0x400);
        // Data: beside, meeting in one byte, and all over, on either side.
        for data in [0x800, 0x7FF, 0x400, 0x200, 0x201, 0x600] {
            pair(script, first, 0x40, base(other, 20, 1, data));
        }
        // Sectors: beside, meeting in one, on either side.
        for (sector, count) in [(12, 2), (11, 2), (10, 1), (8, 2), (8, 3), (9, 2), (9, 3)] {
            pair(script, first, 0x40, base(other, sector, count, 0xA00));
        }
    }
    let quiet = Block::new(0);
    for command in [READ, WRITE] {
        // Earlier data beside or over the later status, and the other way.
        for iopb in [0x3FC, 0x3FE, 0x400, 0x600, 0x7FC, 0x7FE, 0x800] {
            pair(script, base(command, 10, 2, 0x400), iopb, quiet);
        }
        for data in [0, 2, 3, 4, 5, 0x20] {
            pair(script, quiet, 0x7A0, base(command, 10, 2, data));
        }
        // A failed command still writes its status, and no more.
        pair(script, quiet.command(9), 0x7A0, base(command, 10, 2, 0));
        pair(script, base(command, 10, 2, 0x400).unit(1), 0x500, base(READ, 10, 2, 0x400));
    }
}

/// Status bytes of two records that meet, which only a hand-made table has.
fn status_conflicts(script: &mut Script) {
    for second in [0x3C, 0x3D, 0x40, 0x43, 0x44] {
        script.bench_case();
        script.record(0, Record { iopb: 0x40, byte0: 0x20, ..Record::default() });
        script.record(1, Record { iopb: second, byte0: 0x05, code: 0x14, ..Record::default() });
        script.say_all([Line::Commands(2), Line::Pick(1), Line::LentPick(1), Line::Pick(0)]);
        script.say_all([Line::Pick(1), Line::Fields(0x40), Line::Fields(u64::from(second))]);
    }
}
