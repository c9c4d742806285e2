//! `pages [ROOT]`: holds the pages of the repository at ROOT (the one above this folder, if none is
//! named) to its tree. Prints a line for each miss and ends with status 1 if there is any.

use pages::{read, Tree};
use std::path::PathBuf;
use std::process::ExitCode;

fn main() -> ExitCode {
    let mut words = std::env::args_os().skip(1);
    let root = words.next().map(PathBuf::from);
    if words.next().is_some() {
        eprintln!("usage: pages [ROOT]");
        return ExitCode::from(2);
    }
    let root = root.unwrap_or_else(|| PathBuf::from(env!("CARGO_MANIFEST_DIR")).join(".."));
    let files = match read(&root) {
        Ok(files) => files,
        Err(error) => {
            eprintln!("pages: {}: {error}", root.display());
            return ExitCode::from(2);
        }
    };
    let tree = Tree::of(&files);
    let misses = pages::misses(&files, &tree);
    for miss in &misses {
        println!("{miss}");
    }
    if !misses.is_empty() {
        return ExitCode::FAILURE;
    }
    println!(
        "the pages name {} public functions, {} edits and {} rules, and all that they name is there",
        tree.functions.len(),
        tree.edits.len(),
        tree.rules.len()
    );
    ExitCode::SUCCESS
}
