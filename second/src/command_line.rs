//! The command line: which words do what, one line on every mistake, and the
//! status that the program ends with.

use crate::bench::bench;
use crate::makers::cases::random_case;
use crate::makers::decks::{deck_case, random_deck};
use crate::makers::lines::all_lines;
use crate::trial::stream::{count_cases, run_cases};
use std::io::{self, BufWriter, ErrorKind, Read, Write};

const USAGE: &str = "usage: second bench|run|count < FILE, second lines, \
                     second cases|deckcases SEED N, second decks SEED N DIR";

/// What went wrong: how it was called, or what it met.
#[derive(Debug, PartialEq, Eq)]
pub enum Trouble {
    Usage,
    Met(String),
    /// The reader of our output has gone; there is no one to tell.
    OutputClosed,
}

impl Trouble {
    /// The status that the program ends with.
    pub fn status(&self) -> u8 {
        match self {
            Trouble::Usage => 2,
            Trouble::Met(_) | Trouble::OutputClosed => 1,
        }
    }

    /// The line for standard error, if there is one.
    pub fn line(&self) -> Option<String> {
        match self {
            Trouble::Usage => Some(USAGE.to_string()),
            Trouble::Met(what) => Some(format!("second: {what}")),
            Trouble::OutputClosed => None,
        }
    }
}

impl From<io::Error> for Trouble {
    fn from(error: io::Error) -> Trouble {
        match error.kind() {
            ErrorKind::BrokenPipe => Trouble::OutputClosed,
            _ => Trouble::Met(error.to_string()),
        }
    }
}

/// Does what the words after the program's name say.
pub fn obey(words: &[String]) -> Result<(), Trouble> {
    let words: Vec<&str> = words.iter().map(String::as_str).collect();
    let mut out = BufWriter::new(io::stdout().lock());
    match words.as_slice() {
        ["bench"] => {
            let mut deck = Vec::new();
            io::stdin().lock().read_to_end(&mut deck)?;
            for line in bench(&deck).lines() {
                writeln!(out, "{line}")?;
            }
        }
        ["run"] => run_cases(io::stdin().lock(), &mut out)?,
        ["count"] => write!(out, "{}", count_cases(io::stdin().lock())?.text())?,
        ["lines"] => write!(out, "{}", all_lines().text())?,
        ["cases", seed, n] => {
            let (seed, n) = (number(seed)?, number(n)?);
            for k in 0..n {
                write!(out, "{}", random_case(seed, k).text())?;
            }
        }
        ["deckcases", seed, n] => {
            let (seed, n) = (number(seed)?, number(n)?);
            for k in 0..n {
                write!(out, "{}", deck_case(seed, k))?;
            }
        }
        ["decks", seed, n, folder] => write_decks(number(seed)?, number(n)?, folder)?,
        _ => return Err(Trouble::Usage),
    }
    Ok(out.flush()?)
}

fn number(word: &str) -> Result<u64, Trouble> {
    if !word.bytes().all(|byte| byte.is_ascii_digit()) {
        return Err(Trouble::Usage);
    }
    word.parse().map_err(|_| Trouble::Usage)
}

fn write_decks(seed: u64, n: u64, folder: &str) -> Result<(), Trouble> {
    for k in 0..n {
        let path = std::path::Path::new(folder).join(format!("{k:04}.deck"));
        std::fs::write(&path, random_deck(seed, k))
            .map_err(|error| Trouble::Met(format!("{}: {error}", path.display())))?;
    }
    Ok(())
}
