//! Plays cases with decks, in the format of docs/CASES.md, on a program that reads one deck from
//! its standard input, as the bench does: what it writes is what each deck prints.

use second::trial::line::Line;
use std::io::{BufRead, ErrorKind, Write};
use std::process::{Command, Stdio};

/// Runs the program for every deck and prints what it writes; the error says which line it was.
pub fn play_decks(
    words: &[String],
    input: impl BufRead,
    mut out: impl Write,
) -> Result<(), String> {
    for (number, text) in input.lines().enumerate() {
        let at = |error: String| format!("line {}: {error}", number + 1);
        let text = text.map_err(|error| at(error.to_string()))?;
        let printed = match Line::read(&text).map_err(at)? {
            Line::Case(_) => format!("{text}\n").into_bytes(),
            Line::Deck(deck) => run_program(words, &deck).map_err(at)?,
            _ => return Err(at("only a case and its deck can be played here".to_string())),
        };
        out.write_all(&printed).map_err(|error| error.to_string())?;
    }
    out.flush().map_err(|error| error.to_string())
}

/// What the program writes when it reads the deck.
fn run_program(words: &[String], deck: &[u8]) -> Result<Vec<u8>, String> {
    let [program, rest @ ..] = words else {
        return Err("no program is named".to_string());
    };
    let mut running = Command::new(program)
        .args(rest)
        .stdin(Stdio::piped())
        .stdout(Stdio::piped())
        .spawn()
        .map_err(|error| format!("{program}: {error}"))?;
    // A deck is far smaller than a pipe, so this waits for no one.
    let fed = running.stdin.take().expect("its input is a pipe").write_all(deck);
    match fed {
        // The program may stop reading where a deck is too long.
        Err(error) if error.kind() != ErrorKind::BrokenPipe => return Err(error.to_string()),
        _ => {}
    }
    let ended = running.wait_with_output().map_err(|error| error.to_string())?;
    if !ended.status.success() {
        return Err(format!("{program} ended with {}", ended.status));
    }
    Ok(ended.stdout)
}
