//! The walk: from a first address along the chain, copying what is needed of
//! every IOPB and of its link list into the table before anything moves.

use crate::board::Board;
use crate::code::{find, next_misaligned};
use crate::iopb::{fields_at, Fields, IOPB_BYTES};
use crate::link_list::MOST_ELEMENTS;
use crate::range::Range;
use crate::record::{Record, MOST_COMMANDS};
use std::collections::BTreeSet;

/// What a walk answers. `reached` has the address of every IOPB that the walk
/// came to, the refused one last; only those who count need it.
#[derive(Clone, Debug, PartialEq, Eq)]
pub struct WalkReply {
    pub number: u8,
    pub commands: u64,
    pub reached: Vec<u64>,
}

/// Walks the chain. The table is the lent run of records: records past the
/// last command, and all of them on a refusal, are left alone.
pub fn walk(board: &Board, table: &mut [Record], start: u64) -> WalkReply {
    let mut reached = Vec::new();
    if !board.sizes_right() || (table.len() as u64) < MOST_COMMANDS {
        return WalkReply { number: 1, commands: 0, reached };
    }
    match follow(board, start, &mut reached) {
        Err(number) => WalkReply { number, commands: 0, reached },
        Ok(records) => {
            table[..records.len()].copy_from_slice(&records);
            WalkReply { number: 0, commands: records.len() as u64, reached }
        }
    }
}

fn follow(board: &Board, start: u64, reached: &mut Vec<u64>) -> Result<Vec<Record>, u8> {
    if start % 2 == 1 {
        return Err(2);
    }
    let mut records = Vec::new();
    // Every byte of every IOPB of the chain so far.
    let mut covered = BTreeSet::new();
    let mut address = start;
    loop {
        if records.len() as u64 == MOST_COMMANDS {
            return Err(5);
        }
        reached.push(address);
        if !board.in_memory(address, IOPB_BYTES) {
            return Err(3);
        }
        for byte in address..address + IOPB_BYTES {
            if !covered.insert(byte) {
                return Err(4);
            }
        }
        let fields = fields_at(board, address);
        records.push(record_of(board, address, &fields));
        if fields.chen == 0 || next_misaligned(&fields) {
            return Ok(records);
        }
        address = fields.next;
    }
}

fn record_of(board: &Board, address: u64, fields: &Fields) -> Record {
    // On an absent unit this is cylinder + head + sector.
    let drive = board.drive_of(fields.unit);
    let sector = drive.sector_number(fields.cylinder, fields.head, fields.sector);
    let found = find(board, address, fields);
    // The places past the last range are set too: to address 0, length 0.
    let mut list = [Range::default(); MOST_ELEMENTS as usize];
    list[..found.list.len()].copy_from_slice(&found.list);
    Record {
        iopb: address as u32,
        data: fields.data as u32,
        sector: u32::try_from(sector).expect("a drive of the image's size keeps it in 32 bits"),
        taken: 0,
        count: fields.count as u16,
        byte0: board.memory[address as usize],
        code: found.code,
        ranges: found.list.len() as u16,
        fitted: found.fitted,
        unit: fields.unit as u8,
        list,
        unused: [0; MOST_ELEMENTS as usize],
    }
}
