//! The record of one accepted command, and what makes a table unsound
//! (number 9).

use crate::board::{Board, SECTOR_BYTES};
use crate::iopb::IOPB_BYTES;
use crate::link_list::MOST_ELEMENTS;
use crate::range::{sum_of_lengths, Range};
use std::collections::BTreeSet;

/// The most commands that a table may have.
pub const MOST_COMMANDS: u64 = 32;

/// What the walk copies from one IOPB and its link list, its unit among it, its
/// code, how many sectors would have fitted, and the steps taken so far.
#[derive(Clone, Copy, Debug, Default, PartialEq, Eq)]
pub struct Record {
    pub iopb: u32,
    pub data: u32,
    pub sector: u32,
    pub taken: u32,
    pub count: u16,
    pub byte0: u8,
    pub code: u8,
    /// How many ranges the list has; 0 where the command has no list. A table
    /// made by hand may claim more than there is room for.
    pub ranges: u16,
    /// How many sectors would have fitted: the close posts it as it stands. A
    /// table made by hand may hold any number with any code.
    pub fitted: u8,
    /// The unit: 0 to 7 after a walk. A table made by hand may name any.
    pub unit: u8,
    pub list: [Range; MOST_ELEMENTS as usize],
    /// Two bytes beside each range that no one looks at: 0 after a walk. They
    /// are here for the digest, so that a board which fills them is found out.
    pub unused: [u16; MOST_ELEMENTS as usize],
}

impl Record {
    pub fn command(&self) -> u8 {
        self.byte0 & 0x0F
    }

    /// A Write Data with code 00.
    pub fn writes_sectors(&self) -> bool {
        self.code == 0 && self.command() == 1
    }

    /// A Read Data with code 00.
    pub fn reads_sectors(&self) -> bool {
        self.code == 0 && self.command() == 2
    }

    /// A transfer with code 00. A code 00 with any other command is none.
    pub fn is_transfer(&self) -> bool {
        self.writes_sectors() || self.reads_sectors()
    }

    pub fn steps(&self) -> u64 {
        if self.is_transfer() {
            u64::from(self.count)
        } else {
            1
        }
    }

    pub fn finished(&self) -> bool {
        u64::from(self.taken) == self.steps()
    }

    /// The steps that remain. Asked only of a sound table.
    pub fn remaining(&self) -> u64 {
        self.steps() - u64::from(self.taken)
    }

    /// The bytes of all the sectors that the command names.
    pub fn data_bytes(&self) -> u64 {
        SECTOR_BYTES * u64::from(self.count)
    }

    /// It has a list exactly if it has a range; byte 0 has no say in it.
    pub fn has_list(&self) -> bool {
        self.ranges != 0
    }

    /// The ranges that its data lies in, in order: those of its list, or the
    /// one at its data address. Of too many there are as many as there is room.
    pub fn data_ranges(&self) -> Vec<Range> {
        if !self.has_list() {
            return vec![Range { address: self.data, length: self.data_bytes() as u32 }];
        }
        let ranges = u64::from(self.ranges).min(MOST_ELEMENTS);
        self.list[..ranges as usize].to_vec()
    }
}

/// Each thing that makes a table unsound.
#[derive(Clone, Copy, Debug, PartialEq, Eq, PartialOrd, Ord)]
pub enum Cause {
    OverThirtyTwo,
    IopbOutside,
    TakenAbove,
    CountZero,
    DataOutside,
    RangesOverThirtyTwo,
    RangeOutside,
    LengthsOff,
    SectorsOutside,
    WriteProtected,
    UnitAbsent,
}

/// Every cause of number 9 in the table; number 9 is given exactly where
/// there is one. Only records in use are looked at, of none how many sectors
/// would have fitted, and of transfers alone the unit.
pub fn causes(board: &Board, table: &[Record], commands: u64) -> BTreeSet<Cause> {
    let mut found = BTreeSet::new();
    if commands > MOST_COMMANDS {
        found.insert(Cause::OverThirtyTwo);
        return found;
    }
    for record in &table[..commands as usize] {
        causes_in_record(board, record, &mut found);
    }
    found
}

fn causes_in_record(board: &Board, record: &Record, found: &mut BTreeSet<Cause>) {
    if !board.in_memory(u64::from(record.iopb), IOPB_BYTES) {
        found.insert(Cause::IopbOutside);
    }
    if u64::from(record.taken) > record.steps() {
        found.insert(Cause::TakenAbove);
    }
    // The rest is asked of code 00 transfers only: nothing else moves.
    if !record.is_transfer() {
        return;
    }
    if record.count == 0 {
        found.insert(Cause::CountZero);
    }
    causes_in_data(board, record, found);
    causes_in_unit(board, record, found);
}

/// What is wrong with the unit of a transfer, or with its sectors there. One on
/// an absent unit has this cause and needs no other, so the drive that an absent
/// unit counts as is not asked.
fn causes_in_unit(board: &Board, record: &Record, found: &mut BTreeSet<Cause>) {
    let Some(unit) = board.unit(u64::from(record.unit)) else {
        found.insert(Cause::UnitAbsent);
        return;
    };
    let past_last = u64::from(record.sector) + u64::from(record.count);
    if past_last > unit.drive.number_of_sectors() {
        found.insert(Cause::SectorsOutside);
    }
    if record.writes_sectors() && unit.drive.protected {
        found.insert(Cause::WriteProtected);
    }
}

/// What is wrong with the ranges of a transfer. The one range of a command
/// without a list has the right length and is one only, so of these it can
/// merely be outside.
fn causes_in_data(board: &Board, record: &Record, found: &mut BTreeSet<Cause>) {
    let ranges = record.data_ranges();
    if u64::from(record.ranges) > MOST_ELEMENTS {
        found.insert(Cause::RangesOverThirtyTwo);
    }
    if !ranges.iter().all(|range| range.in_memory(board)) {
        found.insert(if record.has_list() { Cause::RangeOutside } else { Cause::DataOutside });
    }
    if sum_of_lengths(&ranges) != record.data_bytes() {
        found.insert(Cause::LengthsOff);
    }
}
