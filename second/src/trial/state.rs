//! The state of a case, and what each line of the format does to it. Lines
//! that call are handed to the board's own functions.

use crate::bench::bench;
use crate::board::{Board, Unit, SECTOR_BYTES};
use crate::drive::Drive;
use crate::iopb::{fields_at, view};
use crate::look::{look, look_number};
use crate::pick::pick;
use crate::place::place;
use crate::record::{Record, MOST_COMMANDS};
use crate::run::{run_picks, run_written};
use crate::trial::answer::Answer;
use crate::trial::line::{set_field, Line, TABLE_RECORDS};
use crate::walk::walk;

/// The calls that are not lent use the first 32 records.
const BY_VALUE: usize = MOST_COMMANDS as usize;

#[derive(Clone, Debug, PartialEq, Eq)]
pub struct State {
    pub board: Board,
    /// The unit that the lines about images and drives set.
    pub chosen: usize,
    pub table: [Record; TABLE_RECORDS as usize],
    pub commands: u64,
    pub lent: usize,
}

impl Default for State {
    fn default() -> State {
        State {
            board: Board::default(),
            chosen: 0,
            table: [Record::default(); TABLE_RECORDS as usize],
            commands: 0,
            lent: 32,
        }
    }
}

impl State {
    /// The chosen unit, there or not.
    pub fn unit(&self) -> &Unit {
        &self.board.units[self.chosen]
    }

    /// The chosen unit's drive as it is lent, whether it is there or not.
    pub fn drive(&self) -> &Drive {
        &self.unit().drive
    }

    fn unit_mut(&mut self) -> &mut Unit {
        &mut self.board.units[self.chosen]
    }

    /// Does what a line says. The error is for a patch that is not inside.
    pub fn play(&mut self, line: &Line) -> Result<Answer, String> {
        match line {
            Line::Case(n) => {
                *self = State::default();
                return Ok(Answer::Case(*n));
            }
            Line::Memory { length, a, b } => self.board.memory = filled_memory(*length, *a, *b),
            Line::Image { length, a, b, c } => {
                self.unit_mut().image = filled_image(*length, *a, *b, *c);
            }
            Line::Put { address, bytes } => patch(&mut self.board.memory, *address, bytes)?,
            Line::Disk { offset, bytes } => patch(&mut self.unit_mut().image, *offset, bytes)?,
            Line::Unit(unit) => self.chosen = *unit as usize,
            Line::Drive(drive) => self.unit_mut().drive = *drive,
            Line::There(there) => self.unit_mut().there = *there,
            Line::Record { place, record } => self.table[*place as usize] = *record,
            Line::Range { place, index, range } => {
                self.table[*place as usize].list[*index as usize] = *range;
            }
            Line::Spoil { place, field, value } => {
                set_field(&mut self.table[*place as usize], *field, *value);
            }
            Line::Commands(n) => self.commands = *n,
            Line::Lent(length) => self.lent = *length as usize,
            calling => return Ok(self.call(calling)),
        }
        Ok(Answer::Quiet)
    }

    fn call(&mut self, line: &Line) -> Answer {
        match line {
            Line::Walk(start) => self.walk_with("walk", BY_VALUE, *start),
            Line::LentWalk(start) => self.walk_with("lentwalk", self.lent, *start),
            Line::Pick(place) => self.pick_with("pick", BY_VALUE, *place),
            Line::LentPick(place) => self.pick_with("lentpick", self.lent, *place),
            Line::Picks(places) => {
                let table = &mut self.table[..BY_VALUE];
                Answer::Picks(run_picks(&mut self.board, table, self.commands, places))
            }
            Line::Written(budget) => {
                let table = &mut self.table[..BY_VALUE];
                Answer::Written(run_written(&mut self.board, table, self.commands, *budget))
            }
            Line::Steps => {
                let in_use = self.commands.min(MOST_COMMANDS) as usize;
                Answer::Steps(self.table[..in_use].iter().map(Record::steps).sum())
            }
            Line::Look { unit, sector } => Answer::Look {
                number: look_number(&self.board, *unit, *sector),
                part: look(&self.board, *unit, *sector).to_vec(),
            },
            Line::Place(sector) => {
                let (number, place) = place(self.drive(), *sector);
                Answer::Place { number, place }
            }
            Line::Fields(address) => Answer::Fields(fields_at(&self.board, *address)),
            Line::View(address) => {
                let (number, fields) = view(&self.board, *address);
                Answer::View { number, fields }
            }
            Line::Deck(deck) => Answer::Deck(bench(deck)),
            _ => unreachable!("the setting lines are played above"),
        }
    }

    fn walk_with(&mut self, word: &'static str, records: usize, start: u64) -> Answer {
        let reply = walk(&self.board, &mut self.table[..records], start);
        self.commands = reply.commands;
        Answer::Walk { word, reply }
    }

    fn pick_with(&mut self, word: &'static str, records: usize, place: u64) -> Answer {
        let table = &mut self.table[..records];
        let number = pick(&mut self.board, table, self.commands, place);
        Answer::Pick { word, number }
    }
}

fn filled_memory(length: u64, a: u8, b: u8) -> Vec<u8> {
    let byte = |j: u64| (u64::from(a) + u64::from(b) * j) % 256;
    (0..length).map(|j| byte(j) as u8).collect()
}

fn filled_image(length: u64, a: u8, b: u8, c: u8) -> Vec<u8> {
    let (a, b, c) = (u64::from(a), u64::from(b), u64::from(c));
    let byte = |j: u64| (a + b * (j / SECTOR_BYTES) + c * (j % SECTOR_BYTES)) % 256;
    (0..length).map(|j| byte(j) as u8).collect()
}

fn patch(bytes: &mut [u8], from: u64, new: &[u8]) -> Result<(), String> {
    let end = from.checked_add(new.len() as u64).filter(|end| *end <= bytes.len() as u64);
    let Some(end) = end else {
        return Err(format!("{} bytes from {from} on are not all inside", new.len()));
    };
    bytes[from as usize..end as usize].copy_from_slice(new);
    Ok(())
}
