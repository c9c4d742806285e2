//! Plays cases in the format of docs/CASES.md over the archive, or over another board, and prints what
//! that page says. The state, the lines that set it and the text of the answers are the second program's;
//! every call is the board's. A `deck` is no call on the board: `decks` has it played.

use crate::archive::ImagesMut;
use crate::boards::{Board, ARCHIVE};
use crate::declared::{LentDrives, Ran, Record};
use crate::translate::{
    drive_of, drives_of, record_of, second_fields_of, second_place_of, second_record_of,
};
use second::run::{PicksReply, WrittenReply};
use second::trial::answer::Answer;
use second::trial::line::{Line, TABLE_RECORDS};
use second::trial::state::State;
use second::walk::WalkReply;
use std::io::{BufRead, Write};

/// The calls that are not lent use the first 32 records.
const BY_VALUE: usize = 32;

/// Plays every line over the archive and prints what it answers; the error says which line it was and
/// why.
pub fn play_cases(input: impl BufRead, out: impl Write) -> Result<(), String> {
    play_cases_on(&ARCHIVE, input, out)
}

/// The same, over any board.
pub fn play_cases_on(
    board: &Board,
    input: impl BufRead,
    mut out: impl Write,
) -> Result<(), String> {
    let mut player = Player { board, state: State::default() };
    for (number, text) in input.lines().enumerate() {
        let at = |error: String| format!("line {}: {error}", number + 1);
        let text = text.map_err(|error| at(error.to_string()))?;
        for line in player.play(&text).map_err(at)? {
            writeln!(out, "{line}").map_err(|error| error.to_string())?;
        }
    }
    out.flush().map_err(|error| error.to_string())
}

struct Player<'a> {
    board: &'a Board,
    state: State,
}

impl Player<'_> {
    /// Plays one line. Beside the page's lines it takes `lentpicks` and `lentwritten`: the runs,
    /// by the lent table of the state's length.
    fn play(&mut self, text: &str) -> Result<Vec<String>, String> {
        let lent_run = text.starts_with("lentpicks") || text.starts_with("lentwritten");
        if !lent_run {
            let line = Line::read(text)?;
            let answer = self.answer(&line, BY_VALUE)?;
            return Ok(answer.lines(&self.state));
        }
        let line = Line::read(&text["lent".len()..])?;
        let answer = self.answer(&line, self.state.lent)?;
        Ok(answer.lines(&self.state).into_iter().map(|line| format!("lent{line}")).collect())
    }

    /// What a line answers; a run takes the first `records` records.
    fn answer(&mut self, line: &Line, records: usize) -> Result<Answer, String> {
        Ok(match line {
            Line::Walk(start) => self.walk("walk", BY_VALUE, *start),
            Line::LentWalk(start) => self.walk("lentwalk", self.state.lent, *start),
            Line::Pick(place) => self.pick("pick", BY_VALUE, *place),
            Line::LentPick(place) => self.pick("lentpick", self.state.lent, *place),
            Line::Picks(picks) => self.picks(records, picks),
            Line::Written(budget) => self.written(records, *budget),
            Line::Steps => self.steps(records),
            Line::Look { unit, sector } => self.look(*unit as u8, *sector as u32),
            Line::Place(sector) => self.place(*sector as u32),
            Line::Fields(at) => self.fields(*at as u32),
            Line::View(at) => self.view(*at as u32),
            Line::Deck(_) => return Err("a deck is for the bench, and not for a board".into()),
            other => return self.state.play(other),
        })
    }

    /// Calls the board over the state's own memory, images and first records.
    fn over_table<R>(
        &mut self,
        records: usize,
        call: impl FnOnce(&mut [u8], &mut ImagesMut, &LentDrives, &mut [Record], usize) -> R,
    ) -> R {
        let state = &mut self.state;
        let drives = drives_of(&state.board);
        let mut table = [Record::default(); TABLE_RECORDS as usize];
        for (mine, its) in table.iter_mut().zip(&state.table) {
            *mine = record_of(its);
        }
        let memory = &mut state.board.memory;
        let mut images = state.board.units.each_mut().map(|unit| unit.image.as_mut_slice());
        let (table_lent, commands) = (&mut table[..records], state.commands as usize);
        let reply = call(memory, &mut images, &drives, table_lent, commands);
        for (mine, its) in table.iter().zip(&mut state.table) {
            *its = second_record_of(mine);
        }
        reply
    }

    fn walk(&mut self, word: &'static str, records: usize, start: u64) -> Answer {
        let walk = self.board.walk;
        let walked = self.over_table(records, |memory, images, drives, table, _| {
            walk(memory, &images.each_ref().map(|image| &**image), drives, start as u32, table)
        });
        let (number, commands) = (walked.number, walked.commands as u64);
        self.state.commands = commands;
        Answer::Walk { word, reply: WalkReply { number, commands, reached: Vec::new() } }
    }

    fn pick(&mut self, word: &'static str, records: usize, place: u64) -> Answer {
        let pick = self.board.pick;
        let number = self.over_table(records, |memory, images, drives, table, commands| {
            pick(memory, images, drives, table, commands, place as usize)
        });
        Answer::Pick { word, number }
    }

    fn picks(&mut self, records: usize, picks: &[u8]) -> Answer {
        let run = self.board.run_picks;
        let ran = self.over_table(records, |memory, images, drives, table, commands| {
            run(memory, images, drives, table, commands, picks)
        });
        let Ran { steps, refused, number, finished } = ran;
        Answer::Picks(PicksReply { number, steps, refused, finished, numbers: Vec::new() })
    }

    fn written(&mut self, records: usize, budget: u64) -> Answer {
        let run = self.board.run_written;
        let ran = self.over_table(records, |memory, images, drives, table, commands| {
            run(memory, images, drives, table, commands, budget)
        });
        let Ran { steps, number, finished, .. } = ran;
        Answer::Written(WrittenReply { number, steps, finished })
    }

    fn steps(&mut self, records: usize) -> Answer {
        let steps = self.board.chain_steps;
        Answer::Steps(self.over_table(records, |_, _, _, table, commands| steps(table, commands)))
    }

    fn look(&self, unit: u8, sector: u32) -> Answer {
        let images = self.state.board.units.each_ref().map(|unit| unit.image.as_slice());
        let drives = drives_of(&self.state.board);
        let part = (self.board.look_part)(&images, &drives, unit, sector);
        let bytes = images.get(usize::from(unit)).map_or(&[][..], |image| image);
        Answer::Look {
            number: (self.board.look_number)(&images, &drives, unit, sector),
            // bytes that the unit's image has not would be the board's mistake: they are told as zeros
            part: bytes
                .get(part.at..part.at + part.length)
                .map_or_else(|| vec![0; part.length], <[u8]>::to_vec),
        }
    }

    fn place(&self, sector: u32) -> Answer {
        let placed = (self.board.place)(drive_of(self.state.unit()), sector);
        Answer::Place { number: placed.number, place: second_place_of(&placed.place) }
    }

    /// The fields at any address. A board's viewer takes even ones alone, so an odd one is
    /// viewed one byte earlier in the memory that begins one byte later.
    fn fields(&self, at: u32) -> Answer {
        let (memory, view) = (&self.state.board.memory, self.board.view);
        let fields = match at % 2 {
            1 if memory.is_empty() => view(memory, at - 1),
            1 => view(&memory[1..], at - 1),
            _ => view(memory, at),
        };
        Answer::Fields(second_fields_of(&fields))
    }

    fn view(&self, at: u32) -> Answer {
        let memory = &self.state.board.memory;
        let fields = second_fields_of(&(self.board.view)(memory, at));
        Answer::View { number: (self.board.view_number)(memory, at), fields }
    }
}
