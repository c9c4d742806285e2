//! The program `deck_player`: cases with decks in the format of docs/CASES.md on standard input;
//! the program that is named is run once for each deck, and what it writes is printed.

use host::decks::play_decks;
use std::io::{self, BufWriter};
use std::process::ExitCode;

fn main() -> ExitCode {
    let words: Vec<String> = std::env::args().skip(1).collect();
    if words.is_empty() {
        eprintln!("usage: deck_player PROGRAM [WORDS..] < CASES");
        return ExitCode::from(2);
    }
    match play_decks(&words, io::stdin().lock(), BufWriter::new(io::stdout().lock())) {
        Ok(()) => ExitCode::SUCCESS,
        Err(what) => {
            eprintln!("deck_player: {what}");
            ExitCode::FAILURE
        }
    }
}
