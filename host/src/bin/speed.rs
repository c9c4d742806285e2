//! The program `speed`: measures the firmware against plain copies, the ordinary board and the
//! second program, prints the table and writes the page that it is given, with the count of copies
//! in the optimised module.
//!   speed PAGE MODULE

use host::copies::{count, Sizes};
use host::speed::clock::measure;
use host::speed::page::{page, table, Row};
use host::speed::works::all;
use std::process::ExitCode;

fn main() -> ExitCode {
    let words: Vec<String> = std::env::args().skip(1).collect();
    let [path, module] = words.as_slice() else {
        eprintln!("usage: speed PAGE MODULE");
        return ExitCode::from(2);
    };
    let read = std::fs::read_to_string(module).map_err(|error| error.to_string());
    let counted = match read.and_then(|text| count(&text, Sizes::default())) {
        Ok(counted) => counted,
        Err(what) => {
            eprintln!("speed: {module}: {what}");
            return ExitCode::from(2);
        }
    };
    let mut rows = Vec::new();
    for work in all() {
        eprintln!("speed: {} ..", work.name);
        let times = measure(work.shape, &work.sides);
        rows.push(Row { work, times });
    }
    print!("{}", table(&rows));
    if let Err(error) = std::fs::write(path, page(&rows, &counted)) {
        eprintln!("speed: {path}: {error}");
        return ExitCode::FAILURE;
    }
    for missed in rows.iter().filter_map(Row::missed) {
        println!("missed: {missed}");
    }
    ExitCode::SUCCESS
}
