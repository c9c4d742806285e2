//! How often each number and each code came up, each thing that the last head's own maximum or a link
//! list changes, numbers at the edges of 16 and 32 bits, numbers of sectors that would have fitted, and
//! what several units change, so that one can see that all were reached.

use crate::differ::call::{Call, Reply};
use crate::differ::sides::RECORDS;
use crate::differ::{fitted_rows, last_head, list_rows, unit_rows, unit_steps, wide_rows};
use second::board::Board;
use second::record::Record;
use std::collections::BTreeMap;

/// The numbers that each call can give.
const NUMBERS: [(&str, &[u8]); 7] = [
    ("walk", &[0, 1, 2, 3, 4, 5]),
    ("pick", &[0, 1, 6, 7, 8, 9]),
    ("run by picks", &[0, 1, 9]),
    ("run as written", &[0, 1, 9]),
    ("look", &[0, 1, 10, 11]),
    ("place", &[0, 1, 10]),
    ("view", &[0, 2, 3]),
];

/// The codes, in the order of document 01 and, after 90, of ticket 2.
const CODES: [u8; 12] = [0x1E, 0x14, 0x42, 0x13, 0x10, 0x11, 0x12, 0x90, 0x1C, 0x1F, 0x4B, 0x00];

pub struct Counts {
    rows: BTreeMap<String, u64>,
    pub chains: u64,
    pub calls: u64,
}

fn number_row(word: &str, number: u8) -> String {
    format!("{word}: number {number}")
}

fn code_row(code: u8) -> String {
    format!("code {code:02X}")
}

/// Every row that there should be, in the order in which they are printed.
fn all_rows() -> Vec<String> {
    let numbers = NUMBERS
        .iter()
        .flat_map(|(word, numbers)| numbers.iter().map(|number| number_row(word, *number)));
    let runs = ["run finished", "run not finished", "pick refused in a list"].map(String::from);
    let lists = list_rows::ROWS.map(String::from);
    let wide = wide_rows::ROWS.map(String::from);
    let fitted = fitted_rows::ROWS.map(String::from);
    numbers
        .chain(CODES.map(code_row))
        .chain(runs)
        .chain(last_head::all_rows())
        .chain(lists)
        .chain(wide)
        .chain(fitted)
        .chain(unit_rows::all_rows())
        .chain(unit_steps::all_rows())
        .collect()
}

impl Default for Counts {
    fn default() -> Counts {
        let rows = all_rows().into_iter().map(|row| (row, 0)).collect();
        Counts { rows, chains: 0, calls: 0 }
    }
}

impl Counts {
    /// Counts a call on this ground; a walk's commands are at the front of the table.
    pub fn see(&mut self, call: &Call, reply: &Reply, ground: &Board, table: &[Record; RECORDS]) {
        self.calls += 1;
        self.add(number_row(call.word(), reply.number()), 1);
        for rows in [last_head::rows, unit_rows::rows, unit_steps::rows] {
            for row in rows(call, reply, ground, table) {
                self.add(row, 1);
            }
        }
        for rows in [list_rows::rows, wide_rows::rows, fitted_rows::rows] {
            for row in rows(call, reply, ground, table) {
                self.add(row.to_string(), 1);
            }
        }
        match reply {
            Reply::Walked(walked) => {
                for record in &table[..walked.commands] {
                    self.add(code_row(record.code), 1);
                }
            }
            Reply::Ran(ran) => {
                self.add("pick refused in a list".to_string(), ran.refused);
                let row = if ran.finished { "run finished" } else { "run not finished" };
                self.add(row.to_string(), 1);
            }
            _ => {}
        }
    }

    fn add(&mut self, row: String, times: u64) {
        *self.rows.entry(row).or_insert(0) += times;
    }

    /// The rows that never came up.
    pub fn never(&self) -> Vec<String> {
        all_rows().into_iter().filter(|row| self.rows[row] == 0).collect()
    }

    /// A row that no rule of document 01 has: the two sides agree on something that neither may do.
    pub fn strange(&self) -> Vec<&String> {
        let known = all_rows();
        self.rows.keys().filter(|row| !known.contains(row)).collect()
    }

    /// The counts, one row to a line.
    pub fn text(&self) -> String {
        let line = |row: &str, times: u64| format!("{row:<70} {times:>10}\n");
        let mut text = line("chains", self.chains) + &line("calls", self.calls);
        for row in all_rows() {
            text += &line(&row, self.rows[&row]);
        }
        text
    }
}
