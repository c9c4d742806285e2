//! The close of a command, bit by bit, and code 00 records that are no
//! transfers.

use crate::makers::block::Block;
use crate::makers::edges::READ;
use crate::makers::script::Script;
use crate::record::Record;
use crate::trial::line::Line;

/// All the cases of this file.
pub fn all(script: &mut Script) {
    no_transfers(script);
    closes(script);
}

/// Code 00 with a command that is no transfer: one step, status bytes only,
/// and the other fields are not looked at.
fn no_transfers(script: &mut Script) {
    let wild = Record {
        iopb: 0x80,
        data: 0xFFFF_FFFF,
        sector: 0xFFFF_FFFF,
        taken: 0,
        count: 0xFFFF,
        byte0: 0,
        code: 0,
        ..Record::default()
    };
    for byte0 in [0x00, 0x03, 0x07, 0x0F, 0x97, 0xFF, 0xC0, 0x10, 0x33] {
        for code in [0x00, 0x14] {
            script.bench_case();
            script.record(0, Record { byte0, code, ..wild });
            script.record(1, Record { byte0, code, iopb: 0x83, count: 0, taken: 1, ..wild });
            script.say_all([Line::Commands(2), Line::Steps, Line::Pick(1), Line::Pick(0)]);
            script.say_all([Line::Pick(0), Line::Fields(0x80), Line::Written(9)]);
        }
    }
    // A code that is not 00 makes any transfer none.
    for code in [0x01, 0x10, 0x42, 0x90, 0xFF] {
        script.bench_case();
        script.record(0, Record { byte0: 0x82, code, ..wild });
        script.say_all([Line::Commands(1), Line::Steps, Line::Written(0), Line::Written(2)]);
        script.say(Line::Fields(0x80));
    }
}

/// The close: every bit of byte 0, an odd IOPB, an IOPB at the end.
fn closes(script: &mut Script) {
    for protected in [false, true] {
        for byte0 in [0x02, 0x42, 0x82, 0xC2, 0xE2, 0x92, 0xF2] {
            script.case();
            script.bench_ground(protected);
            let block = Block::new(READ).at(0, 1, 2).count(2).data(0x400).byte(0, byte0);
            script.block(0x40, block.next_address(0x60));
            script.say_all([Line::Walk(0x40), Line::Pick(0), Line::Fields(0x40), Line::Pick(0)]);
            script.say_all([Line::Fields(0x40), Line::Written(9), Line::Fields(0x40)]);
        }
    }
    for iopb in [0, 1, 0xFE1, 0xFE2] {
        script.bench_case();
        script.record(0, Record { iopb, byte0: 0xA0, code: 0x1E, ..Record::default() });
        script.say_all([Line::Commands(1), Line::Pick(0), Line::Fields(u64::from(iopb))]);
    }
}
