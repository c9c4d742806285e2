//! Streams of cases: reads lines, plays them, and prints or counts answers.
//! The first line outside the format ends the stream.

use crate::command_line::Trouble;
use crate::trial::line::Line;
use crate::trial::state::State;
use crate::trial::tally::Tally;
use std::io::{BufRead, Write};

/// Plays every line and prints what it answers.
pub fn run_cases(input: impl BufRead, mut out: impl Write) -> Result<(), Trouble> {
    let mut state = State::default();
    for (number, text) in input.lines().enumerate() {
        let line = line_of(number, text)?;
        let answer = state.play(&line).map_err(|error| at(number, &error))?;
        for line in answer.lines(&state) {
            writeln!(out, "{line}")?;
        }
    }
    Ok(())
}

/// Plays every line and counts what came up.
pub fn count_cases(input: impl BufRead) -> Result<Tally, Trouble> {
    let mut state = State::default();
    let mut tally = Tally::new();
    for (number, text) in input.lines().enumerate() {
        let line = line_of(number, text)?;
        let before = state.clone();
        let answer = state.play(&line).map_err(|error| at(number, &error))?;
        tally.see(&before, &state, &line, &answer);
    }
    Ok(tally)
}

fn line_of(number: usize, text: std::io::Result<String>) -> Result<Line, Trouble> {
    let text = text.map_err(|error| at(number, &error.to_string()))?;
    Line::read(&text).map_err(|error| at(number, &error))
}

fn at(number: usize, error: &str) -> Trouble {
    Trouble::Met(format!("line {}: {error}", number + 1))
}
