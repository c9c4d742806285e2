//! The two sides of a comparison: a board with its memory, images and table, and the second program
//! with its own. Whatever is set is set on both; after each call both are compared whole.

use crate::boards::Board;
use crate::declared::{Ran, Record, Walked, UNITS};
use crate::differ::call::{Call, Reply};
use crate::translate::{
    drive_of, drives_of, lent, lent_mut, record_of, second_fields_of, second_place_of,
};

/// The records that a caller holds; the lent table is the first of them.
pub const RECORDS: usize = 40;

pub struct Sides<'a> {
    board: &'a Board,
    memory: Vec<u8>,
    images: [Vec<u8>; UNITS],
    table: [Record; RECORDS],
    second: second::board::Board,
    second_table: [second::record::Record; RECORDS],
}

impl<'a> Sides<'a> {
    /// Both sides on the same ground, with a table of zero records.
    pub fn new(board: &'a Board, ground: second::board::Board) -> Sides<'a> {
        Sides {
            board,
            memory: ground.memory.clone(),
            images: ground.units.each_ref().map(|unit| unit.image.clone()),
            table: [Record::default(); RECORDS],
            second: ground,
            second_table: [second::record::Record::default(); RECORDS],
        }
    }

    /// The ground as it is now: the same on both sides, as long as no call differs.
    pub fn ground(&self) -> &second::board::Board {
        &self.second
    }

    pub fn table(&self) -> &[second::record::Record; RECORDS] {
        &self.second_table
    }

    pub fn set_drive(&mut self, unit: usize, drive: second::drive::Drive) {
        self.second.units[unit].drive = drive;
    }

    pub fn set_there(&mut self, unit: usize, there: bool) {
        self.second.units[unit].there = there;
    }

    pub fn set_memory(&mut self, memory: Vec<u8>) {
        self.memory.clone_from(&memory);
        self.second.memory = memory;
    }

    pub fn set_image(&mut self, unit: usize, image: Vec<u8>) {
        self.images[unit].clone_from(&image);
        self.second.units[unit].image = image;
    }

    pub fn set_ground(&mut self, ground: second::board::Board) {
        self.memory.clone_from(&ground.memory);
        self.images = ground.units.each_ref().map(|unit| unit.image.clone());
        self.second = ground;
    }

    /// Puts bytes in memory, as a host may at any time.
    pub fn put(&mut self, at: usize, bytes: &[u8]) {
        self.memory[at..at + bytes.len()].copy_from_slice(bytes);
        self.second.memory[at..at + bytes.len()].copy_from_slice(bytes);
    }

    pub fn set_record(&mut self, place: usize, record: second::record::Record) {
        self.table[place] = record_of(&record);
        self.second_table[place] = record;
    }

    /// Calls both sides. The error says what each gave, or where their bytes differ.
    pub fn call(&mut self, call: &Call) -> Result<Reply, String> {
        let expected = self.ask_second(call);
        let given = self.ask_board(call);
        let sides = |given: &dyn std::fmt::Display, expected: &dyn std::fmt::Display| {
            format!("  {} gives: {given}\n  the second program gives: {expected}", self.board.name)
        };
        if given != expected {
            return Err(sides(&given, &expected));
        }
        match self.first_difference() {
            Some((what, mine, its)) => {
                Err(format!("  both give: {given}\n{what}\n{}", sides(&mine, &its)))
            }
            None => Ok(given),
        }
    }

    /// Where memory, an image or the table first differ, and what each side has there. The images are
    /// all four, also those of absent units.
    fn first_difference(&self) -> Option<(String, String, String)> {
        let images = self.images.iter().zip(&self.second.units).enumerate();
        let images = images.map(|(k, (mine, its))| (format!("unit {k}'s image"), mine, &its.image));
        let memory = ("memory".to_string(), &self.memory, &self.second.memory);
        for (name, mine, its) in std::iter::once(memory).chain(images) {
            if mine == its {
                continue;
            }
            let at = (0..mine.len()).find(|at| mine[*at] != its[*at]).unwrap_or(mine.len());
            return Some((
                format!("  byte {at} of {name} differs"),
                format!("{:02X}", mine[at]),
                format!("{:02X}", its[at]),
            ));
        }
        let place = (0..RECORDS).find(|p| self.table[*p] != record_of(&self.second_table[*p]))?;
        Some((
            format!("  the record at place {place} differs"),
            format!("{:?}", self.table[place]),
            format!("{:?}", record_of(&self.second_table[place])),
        ))
    }

    fn ask_board(&mut self, call: &Call) -> Reply {
        let drives = &drives_of(&self.second);
        let (memory, board) = (&mut self.memory, self.board);
        let images = &mut self.images;
        match call {
            Call::Walk { start, lent: records } => {
                let table = &mut self.table[..*records];
                Reply::Walked((board.walk)(memory, &lent(images), drives, *start, table))
            }
            Call::Pick { place, commands, lent } => {
                let (images, table) = (&mut lent_mut(images), &mut self.table[..*lent]);
                Reply::Picked((board.pick)(memory, images, drives, table, *commands, *place))
            }
            Call::Picks { picks, commands, lent } => {
                let (images, table) = (&mut lent_mut(images), &mut self.table[..*lent]);
                Reply::Ran((board.run_picks)(memory, images, drives, table, *commands, picks))
            }
            Call::Written { budget, commands, lent } => {
                let (images, table) = (&mut lent_mut(images), &mut self.table[..*lent]);
                Reply::Ran((board.run_written)(memory, images, drives, table, *commands, *budget))
            }
            Call::Look { unit, sector } => {
                let part = (board.look_part)(&lent(images), drives, *unit, *sector);
                let number = (board.look_number)(&lent(images), drives, *unit, *sector);
                Reply::Looked { number, at: part.at, length: part.length }
            }
            Call::Place { unit, sector } => {
                let placed = (board.place)(drive_of(&self.second.units[*unit]), *sector);
                Reply::Placed { number: placed.number, place: second_place_of(&placed.place) }
            }
            Call::View { at } => Reply::Viewed {
                number: (board.view_number)(memory, *at),
                fields: second_fields_of(&(board.view)(memory, *at)).in_order(),
            },
        }
    }

    fn ask_second(&mut self, call: &Call) -> Reply {
        let board = &mut self.second;
        match call {
            Call::Walk { start, lent } => {
                let table = &mut self.second_table[..*lent];
                let reply = second::walk::walk(board, table, u64::from(*start));
                let commands = reply.commands as usize;
                Reply::Walked(Walked { number: reply.number, commands })
            }
            Call::Pick { place, commands, lent } => {
                let table = &mut self.second_table[..*lent];
                Reply::Picked(second::pick::pick(board, table, *commands as u64, *place as u64))
            }
            Call::Picks { picks, commands, lent } => {
                let table = &mut self.second_table[..*lent];
                let ran = second::run::run_picks(board, table, *commands as u64, picks);
                let (steps, refused) = (ran.steps, ran.refused);
                Reply::Ran(Ran { steps, refused, number: ran.number, finished: ran.finished })
            }
            Call::Written { budget, commands, lent } => {
                let table = &mut self.second_table[..*lent];
                let ran = second::run::run_written(board, table, *commands as u64, *budget);
                let (steps, number) = (ran.steps, ran.number);
                Reply::Ran(Ran { steps, refused: 0, number, finished: ran.finished })
            }
            Call::Look { unit, sector } => self.look_by_second(*unit, *sector),
            Call::Place { unit, sector } => {
                let drive = &board.units[*unit].drive;
                let (number, place) = second::place::place(drive, u64::from(*sector));
                Reply::Placed { number, place }
            }
            Call::View { at } => {
                let (number, fields) = second::iopb::view(board, u64::from(*at));
                Reply::Viewed { number, fields: fields.in_order() }
            }
        }
    }

    /// The second program hands back the part itself: where it lies is told by its address.
    fn look_by_second(&self, unit: u8, sector: u32) -> Reply {
        let (unit, sector) = (u64::from(unit), u64::from(sector));
        let number = second::look::look_number(&self.second, unit, sector);
        let part = second::look::look(&self.second, unit, sector);
        let at = if part.is_empty() {
            0
        } else {
            part.as_ptr() as usize - self.second.units[unit as usize].image.as_ptr() as usize
        };
        Reply::Looked { number, at, length: part.len() }
    }
}
