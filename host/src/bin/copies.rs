//! The program `copies`: counts the copies of a table in an optimised LLVM module, prints them, and
//! says with its status whether all are within their limits.
//!   copies MODULE

use host::copies::{count, table, Sizes};
use std::process::ExitCode;

fn main() -> ExitCode {
    let words: Vec<String> = std::env::args().skip(1).collect();
    let [path] = words.as_slice() else {
        eprintln!("usage: copies MODULE");
        return ExitCode::from(2);
    };
    let sizes = Sizes::default();
    let read = std::fs::read_to_string(path).map_err(|error| error.to_string());
    let counted = match read.and_then(|module| count(&module, sizes)) {
        Ok(counted) => counted,
        Err(what) => {
            eprintln!("copies: {path}: {what}");
            return ExitCode::from(2);
        }
    };
    println!("A table has {} bytes, a record {}.", sizes.table, sizes.record);
    print!("{}", table(&counted));
    let mut status = ExitCode::SUCCESS;
    for path in counted.iter().filter(|path| !path.within()) {
        println!("{}: {} copies, and at most {} are allowed", path.name, path.number(), path.limit);
        for words in path.copies.iter().flatten() {
            println!("  {words}");
        }
        status = ExitCode::FAILURE;
    }
    status
}
