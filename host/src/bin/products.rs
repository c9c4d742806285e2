//! The program `products`: looks in the firmware's LLVM module for products that the small kit's
//! processor cannot take, and in its source for products that are written in another way than by `*`;
//! prints what it saw, and says with its status whether there is one.
//!   products OPTIMISED [HANDED_OVER]
//!   products source FILE.rt..

use host::products::{handed_over, optimised, table, written};
use std::process::ExitCode;

/// Reads a file, and asks it something; an error tells which file it is.
fn asked<T>(path: &str, question: impl Fn(&str) -> Result<T, String>) -> Result<T, String> {
    let read = std::fs::read_to_string(path).map_err(|error| error.to_string());
    read.and_then(|text| question(&text)).map_err(|what| format!("{path}: {what}"))
}

/// Asks a module; whether it has no product that may not be. Each line of what may not be begins with
/// the question that found it, by which tools/products knows it.
fn module(first: &str, second: Option<&String>) -> Result<bool, String> {
    let handed_over = second.map(|path| asked(path, handed_over)).transpose()?;
    let optimised = asked(first, optimised)?;
    print!("{}", table(&optimised, handed_over));
    for found in &optimised.wide {
        println!("module: {}, {} bits: {}", found.function, found.bits, found.instruction);
    }
    Ok(optimised.wide.is_empty())
}

/// Asks files of the source; whether none multiplies in another way than by `*`.
fn source(paths: &[String]) -> Result<bool, String> {
    let mut none = true;
    for path in paths {
        for found in asked(path, |text| Ok(written::other_than_by_sign(text)))? {
            println!("source: {path}:{}: {}", found.line, found.word);
            none = false;
        }
    }
    if none {
        println!(
            "The source, {} files: every product is written `*`, and so proved to fit.",
            paths.len()
        );
    }
    Ok(none)
}

fn main() -> ExitCode {
    let words: Vec<String> = std::env::args().skip(1).collect();
    let answer = match words.as_slice() {
        [first, files @ ..] if first == "source" && !files.is_empty() => source(files),
        [first] => module(first, None),
        [first, second] => module(first, Some(second)),
        _ => {
            eprintln!("usage: products OPTIMISED [HANDED_OVER], or products source FILE.rt..");
            return ExitCode::from(2);
        }
    };
    match answer {
        Ok(true) => ExitCode::SUCCESS,
        Ok(false) => ExitCode::FAILURE,
        Err(what) => {
            eprintln!("products: {what}");
            ExitCode::from(2)
        }
    }
}
