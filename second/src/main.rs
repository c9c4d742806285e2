//! The program `second`: hands its words to the command line and says in one
//! line what went wrong, if anything did.

use second::command_line::obey;
use std::process::ExitCode;

fn main() -> ExitCode {
    let words: Vec<String> = std::env::args().skip(1).collect();
    match obey(&words) {
        Ok(()) => ExitCode::SUCCESS,
        Err(trouble) => {
            if let Some(line) = trouble.line() {
                eprintln!("{line}");
            }
            ExitCode::from(trouble.status())
        }
    }
}
