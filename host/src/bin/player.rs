//! The program `player`: cases in the format of docs/CASES.md on standard input, played over the
//! archive; what that page says on standard output.

use host::player::play_cases;
use std::io::{self, BufWriter};
use std::process::ExitCode;

fn main() -> ExitCode {
    if std::env::args().count() != 1 {
        eprintln!("usage: player < CASES");
        return ExitCode::from(2);
    }
    match play_cases(io::stdin().lock(), BufWriter::new(io::stdout().lock())) {
        Ok(()) => ExitCode::SUCCESS,
        Err(what) => {
            eprintln!("player: {what}");
            ExitCode::FAILURE
        }
    }
}
