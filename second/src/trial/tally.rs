//! Counts how often each thing comes up in a stream of cases, so that one can
//! see what a trial has tried. Every row is there from the start, at 0.

use crate::bench::BenchReply;
use crate::board::Board;
use crate::conflict::{data_bytes, meet, sectors, status_bytes};
use crate::iopb::fields_at;
use crate::pick::take_step;
use crate::place::Place;
use crate::record::{causes, Cause, Record, MOST_COMMANDS};
use crate::trial::answer::Answer;
use crate::trial::fitted;
use crate::trial::last_head;
use crate::trial::line::Line;
use crate::trial::list_steps;
use crate::trial::list_walks;
use crate::trial::state::State;
use crate::trial::unit_looks;
use crate::trial::unit_steps;
use crate::trial::unit_walks;
use crate::trial::wide;
use crate::walk::WalkReply;
use std::collections::{BTreeMap, BTreeSet};

const CODES: [u8; 12] = [0x00, 0x10, 0x11, 0x12, 0x13, 0x14, 0x1C, 0x1E, 0x1F, 0x42, 0x4B, 0x90];
const KINDS: [&str; 4] = ["sector", "data-data", "data-status", "status-status"];
const CAUSES: [(Cause, &str); 11] = [
    (Cause::OverThirtyTwo, "over 32 commands"),
    (Cause::IopbOutside, "IOPB not all in memory"),
    (Cause::TakenAbove, "steps taken above steps"),
    (Cause::CountZero, "count zero"),
    (Cause::DataOutside, "data outside memory"),
    (Cause::RangesOverThirtyTwo, "over 32 ranges"),
    (Cause::RangeOutside, "a range outside memory"),
    (Cause::LengthsOff, "lengths that don't add up"),
    (Cause::SectorsOutside, "sectors outside drive"),
    (Cause::WriteProtected, "write to protected drive"),
    (Cause::UnitAbsent, "transfer on an absent unit"),
];
const LOOP: &str = "refused 4: a loop";
const OVERLAP: &str = "refused 4: an overlap, no loop";
const ODD_CHAINED: &str = "odd next address, CHEN set";
const ODD_ALONE: &str = "odd next address, CHEN clear";
const PASSED: &str = "step past an unfinished command";

/// The rows in the order in which they are printed.
pub struct Tally {
    names: Vec<String>,
    counts: BTreeMap<String, u64>,
    /// Which sectors the case has written so far.
    moved: unit_steps::Moved,
}

impl Default for Tally {
    fn default() -> Tally {
        Tally::new()
    }
}

impl Tally {
    pub fn new() -> Tally {
        let names = all_names();
        let counts = names.iter().map(|name| (name.clone(), 0)).collect();
        Tally { names, counts, moved: unit_steps::Moved::default() }
    }

    /// The rows, each a name and how often it came up.
    pub fn rows(&self) -> Vec<(String, u64)> {
        self.names.iter().map(|name| (name.clone(), self.counts[name])).collect()
    }

    /// The table as text, the counts in one column.
    pub fn text(&self) -> String {
        let widest = self.names.iter().map(String::len).max().unwrap_or(0);
        let line = |(name, count): (String, u64)| format!("{name:<widest$} {count:>8}\n");
        self.rows().into_iter().map(line).collect()
    }

    fn add(&mut self, name: &str) {
        *self.counts.get_mut(name).unwrap_or_else(|| panic!("no row {name}")) += 1;
    }

    fn add_all<Name: AsRef<str>>(&mut self, names: Vec<Name>) {
        for name in names {
            self.add(name.as_ref());
        }
    }

    /// Counts one line: the state before it, and the state after it.
    pub fn see(&mut self, before: &State, state: &State, line: &Line, answer: &Answer) {
        self.see_drive(state, answer);
        match answer {
            Answer::Quiet | Answer::Steps(_) => {}
            Answer::Case(_) => {
                self.moved = unit_steps::Moved::default();
                self.add("cases");
            }
            Answer::Walk { word, reply } => self.see_walk(before, state, word, reply),
            Answer::Pick { word, number } => {
                self.see_call(before, state, word, *number);
                if let Line::Pick(place) | Line::LentPick(place) = line {
                    self.see_pick(&mut before.clone(), *place, *number);
                }
            }
            Answer::Picks(reply) => {
                self.see_call(before, state, "picks", reply.number);
                if let Line::Picks(places) = line {
                    self.see_list(before.clone(), places, &reply.numbers);
                }
                self.see_finished(reply.number, reply.finished);
            }
            Answer::Written(reply) => {
                self.see_call(before, state, "written", reply.number);
                self.see_written(before.clone(), reply.steps);
                self.see_finished(reply.number, reply.finished);
            }
            Answer::Look { number, .. } => self.see_look(state, line, *number),
            Answer::Place { number, place } => self.see_place(state, line, *number, place),
            Answer::Fields(_) => self.add("fields"),
            Answer::View { number, .. } => self.add(&format!("view {number}")),
            Answer::Deck(reply) => self.see_deck(reply),
        }
    }

    /// A call on the table, by its number.
    fn see_call(&mut self, before: &State, state: &State, word: &str, number: u8) {
        self.add(&format!("{word} {number}"));
        self.see_one(state, word, number);
        self.see_causes(state, number);
        if number == 0 {
            let in_use = &before.table[..before.commands as usize];
            self.add_all(fitted::call_rows(in_use, word));
            self.add_all(unit_looks::call_rows(&state.board, in_use));
        }
    }

    /// The drives of the units that are there, at each call that takes them; of
    /// a place the one that is asked.
    fn see_drive(&mut self, state: &State, answer: &Answer) {
        if let Answer::Walk { .. }
        | Answer::Pick { .. }
        | Answer::Picks(_)
        | Answer::Written(_)
        | Answer::Look { .. } = answer
        {
            for unit in state.board.present() {
                self.add_all(wide::drive_rows(&unit.drive));
            }
        }
        if let Answer::Place { .. } = answer {
            self.add_all(wide::drive_rows(state.drive()));
        }
    }

    fn see_look(&mut self, state: &State, line: &Line, number: u8) {
        self.add(&format!("look {number}"));
        self.see_one(state, "look", number);
        let Line::Look { unit, sector } = line else {
            return;
        };
        self.add_all(unit_looks::look_rows(&state.board, *unit, *sector, number));
        if let Some(unit) = state.board.unit(*unit) {
            self.add_all(last_head::look_rows(&unit.drive, *sector, number));
            self.add_all(wide::look_rows(unit, *sector, number));
        }
    }

    fn see_place(&mut self, state: &State, line: &Line, number: u8, place: &Place) {
        self.add(&format!("place {number}"));
        if let Line::Place(sector) = line {
            let drive = state.drive();
            self.add_all(last_head::place_rows(drive, *sector, number, place));
            self.add_all(wide::place_rows(drive, *sector, number));
        }
    }

    fn see_walk(&mut self, before: &State, state: &State, word: &str, reply: &WalkReply) {
        self.add(&format!("{word} {}", reply.number));
        let (number, commands) = (reply.number, reply.commands);
        self.add_all(fitted::walk_rows(&before.table, &state.table, number, commands));
        if reply.number == 4 {
            let (last, earlier) = reply.reached.split_last().expect("an IOPB was reached");
            self.add(if earlier.contains(last) { LOOP } else { OVERLAP });
        }
        self.see_one(state, word, reply.number);
        if reply.number != 0 {
            return;
        }
        self.add(&format!("chain of {}", reply.commands));
        for unit in state.board.present() {
            self.add_all(last_head::drive_rows(&unit.drive));
        }
        self.add_all(unit_walks::walk_rows(&state.board));
        let records = &state.table[..reply.commands as usize];
        for (record, address) in records.iter().zip(&reply.reached) {
            self.see_command(&state.board, *address, record);
        }
    }

    /// An accepted command of a walk.
    fn see_command(&mut self, board: &Board, address: u64, record: &Record) {
        self.add(&format!("code {:02X}", record.code));
        let fields = fields_at(board, address);
        let drive = board.drive_of(fields.unit);
        self.add_all(last_head::command_rows(&drive, &fields, record));
        self.add_all(list_walks::command_rows(board, &fields, record));
        self.add_all(wide::command_rows(board, &fields, record));
        self.add_all(fitted::command_rows(board, &fields, record));
        self.add_all(unit_walks::command_rows(board, &fields, record));
        if fields.next % 2 == 1 {
            self.add(if fields.chen == 1 { ODD_CHAINED } else { ODD_ALONE });
        }
    }

    /// A call that got 1. A look does not ask for memory, and only the lent
    /// forms ask for the length of the lent table.
    fn see_one(&mut self, state: &State, word: &str, number: u8) {
        if number != 1 {
            self.add_all(unit_looks::not_one_rows(&state.board, word));
            return;
        }
        let memory_right = word == "look" || state.board.memory_right();
        let table_right = !word.starts_with("lent") || state.lent as u64 >= MOST_COMMANDS;
        let units = || state.board.units.iter().enumerate().filter(|(_, unit)| unit.there);
        for (k, unit) in units() {
            let mut others = units().filter(|(other, _)| *other != k);
            let others_right =
                memory_right && table_right && others.all(|(_, unit)| unit.image_right());
            self.add_all(last_head::refused_one_rows(unit, word, others_right));
            self.add_all(wide::refused_one_rows(unit, word, others_right));
            self.add_all(unit_looks::refused_one_rows(unit, k as u64, word, others_right));
        }
    }

    fn see_finished(&mut self, number: u8, finished: bool) {
        if number == 0 {
            self.add(if finished { "run finished" } else { "run not finished" });
        }
    }

    /// Goes through a list again, step by step, so that each pick is judged by
    /// what it met.
    fn see_list(&mut self, mut state: State, places: &[u8], numbers: &[u8]) {
        for (place, number) in places.iter().zip(numbers) {
            self.add(&format!("pick in a list {number}"));
            self.see_pick(&mut state, u64::from(*place), *number);
        }
    }

    /// Goes through a run as written again, step by step.
    fn see_written(&mut self, mut state: State, steps: u64) {
        for _ in 0..steps {
            let earliest = state.table.iter().position(|record| !record.finished());
            self.see_step(&mut state, earliest.expect("a step was taken"));
        }
    }

    /// A pick with its number, and the state as the pick met it. If it was not
    /// refused, its step is taken here too.
    fn see_pick(&mut self, state: &mut State, place: u64, number: u8) {
        if number != 0 && number != 6 {
            return;
        }
        let (earlier, picked) = (unfinished_before(state, place), state.table[place as usize]);
        if number == 6 {
            self.see_conflict(&earlier, &picked);
            self.add_all(list_steps::conflict_rows(&earlier, &picked));
            self.add_all(unit_steps::conflict_rows(&earlier, &picked));
            return;
        }
        if !earlier.is_empty() {
            self.add(PASSED);
            self.add_all(list_steps::past_rows(&earlier, &picked));
            self.add_all(unit_steps::past_rows(&earlier, &picked));
        }
        self.see_step(state, place as usize);
    }

    fn see_step(&mut self, state: &mut State, place: usize) {
        self.add_all(list_steps::step_rows(&state.board, &state.table[place]));
        self.add_all(fitted::step_rows(&state.board, &state.table[place]));
        self.add_all(unit_steps::step_rows(&state.board, &state.table[place]));
        let moved = self.moved.step_rows(&state.table[place]);
        self.add_all(moved);
        take_step(&mut state.board, &mut state.table[place]);
    }

    /// Every kind of overlap between a refused command and the unfinished
    /// ones before it; and the kind that alone would have refused it.
    fn see_conflict(&mut self, earlier: &[Record], picked: &Record) {
        let found: BTreeSet<_> = earlier.iter().flat_map(|record| kinds(record, picked)).collect();
        for kind in &found {
            self.add(&format!("conflict {kind}"));
            if found.len() == 1 {
                self.add(&format!("conflict {kind} alone"));
            }
        }
    }

    fn see_causes(&mut self, state: &State, number: u8) {
        if number != 9 {
            return;
        }
        let found = causes(&state.board, &state.table, state.commands);
        self.add_all(last_head::refused_nine_rows(&state.board, &state.table, state.commands));
        let in_use = &state.table[..state.commands.min(MOST_COMMANDS) as usize];
        self.add_all(list_steps::refused_nine_rows(in_use));
        self.add_all(wide::refused_nine_rows(&state.board, in_use, &found));
        self.add_all(unit_looks::refused_nine_rows(&state.board, in_use, &found));
        for (cause, name) in CAUSES {
            if found.contains(&cause) {
                self.add(&format!("refused 9: {name}"));
                if found.len() == 1 {
                    self.add(&format!("refused 9: {name}, alone"));
                }
            }
        }
    }

    fn see_deck(&mut self, reply: &BenchReply) {
        match reply {
            BenchReply::Deck => self.add("bench deck"),
            BenchReply::Chain(number) => self.add(&format!("bench chain {number}")),
            BenchReply::Lines { records, .. } => {
                self.add("bench lines");
                for record in records.iter().filter(|record| record.has_list()) {
                    self.add(&bench_list(record.code));
                }
            }
        }
    }
}

/// The unfinished commands before a place.
fn unfinished_before(state: &State, place: u64) -> Vec<Record> {
    let before = state.table[..place as usize].iter();
    before.filter(|record| !record.finished()).copied().collect()
}

/// The row for a command of a deck whose list was read.
fn bench_list(code: u8) -> String {
    format!("bench list read, code {code:02X}")
}

/// The kinds of overlap of two commands, where at least one of them writes.
/// Status bytes are always written; data bytes are written by a Read Data.
pub fn kinds(one: &Record, other: &Record) -> BTreeSet<&'static str> {
    let mut found = BTreeSet::new();
    let some_sectors_written = one.writes_sectors() || other.writes_sectors();
    if some_sectors_written && meet(&sectors(one), &sectors(other)) {
        found.insert(KINDS[0]);
    }
    let some_data_written = one.reads_sectors() || other.reads_sectors();
    if some_data_written && meet(&data_bytes(one), &data_bytes(other)) {
        found.insert(KINDS[1]);
    }
    if meet(&data_bytes(one), &status_bytes(other)) || meet(&status_bytes(one), &data_bytes(other))
    {
        found.insert(KINDS[2]);
    }
    if meet(&status_bytes(one), &status_bytes(other)) {
        found.insert(KINDS[3]);
    }
    found
}

/// Each call with each number that it can give.
fn names_of_calls() -> Vec<String> {
    let mut names = Vec::new();
    for (word, numbers) in [
        ("walk", vec![0, 1, 2, 3, 4, 5]),
        ("lentwalk", vec![0, 1, 2, 3, 4, 5]),
        ("pick", vec![0, 1, 6, 7, 8, 9]),
        ("lentpick", vec![0, 1, 6, 7, 8, 9]),
        ("picks", vec![0, 1, 9]),
        // 1 and 9 are tested before the first pick of a list.
        ("pick in a list", vec![0, 6, 7, 8]),
        ("written", vec![0, 1, 9]),
        ("look", vec![0, 1, 10, 11]),
        ("place", vec![0, 1, 10]),
        ("view", vec![0, 2, 3]),
    ] {
        names.extend(numbers.iter().map(|number| format!("{word} {number}")));
    }
    names
}

fn all_names() -> Vec<String> {
    let mut names = vec!["cases".to_string()];
    names.extend(names_of_calls());
    names.extend(["fields", "run finished", "run not finished"].map(String::from));
    names.extend(CODES.iter().map(|code| format!("code {code:02X}")));
    names.extend(KINDS.iter().map(|kind| format!("conflict {kind}")));
    names.extend(KINDS.iter().map(|kind| format!("conflict {kind} alone")));
    names.push(PASSED.to_string());
    names.extend((1..=MOST_COMMANDS).map(|length| format!("chain of {length}")));
    names.extend([LOOP, OVERLAP, ODD_CHAINED, ODD_ALONE].map(String::from));
    names.extend(CAUSES.iter().map(|(_, name)| format!("refused 9: {name}")));
    names.extend(CAUSES.iter().map(|(_, name)| format!("refused 9: {name}, alone")));
    names.extend(last_head::names());
    names.extend(list_walks::names().into_iter().map(String::from));
    names.extend(list_steps::names().into_iter().map(String::from));
    names.extend(wide::names());
    names.extend(fitted::names());
    names.extend(unit_walks::names());
    names.extend(unit_steps::names());
    names.extend(unit_looks::names());
    // The bench's sizes are right and it starts at 0, so 1 and 2 cannot come.
    names.extend(
        ["bench deck", "bench chain 3", "bench chain 4", "bench chain 5"].map(String::from),
    );
    names.push("bench lines".to_string());
    names.extend([0x00, 0x1C, 0x1F, 0x4B].map(bench_list));
    names
}
