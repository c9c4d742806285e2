//! Holds the pages to the tree. What docs/CONTRACTS.md and docs/PROMISES.md name (functions, edits,
//! definitions, promises, files) exists; every public function, every edit and every rule is named;
//! and every rule that is cited anywhere stands in docs/RULES.md.

pub mod markdown;
pub mod resolve;
pub mod rules;
pub mod tree;

pub use tree::Tree;

use std::fmt;
use std::path::Path;

pub const CONTRACTS: &str = "docs/CONTRACTS.md";
pub const PROMISES: &str = "docs/PROMISES.md";
pub const DECISIONS: &str = "docs/DECISIONS.md";
pub const RULES: &str = "docs/RULES.md";

/// A file of the repository: its path from the root, and its text where it is one that is read.
#[derive(Clone, Debug)]
pub struct File {
    pub path: String,
    pub text: String,
}

impl File {
    pub fn new(path: &str, text: &str) -> File {
        File { path: path.to_string(), text: text.to_string() }
    }
}

/// Something that is missing, and where that was seen.
#[derive(Clone, Debug, PartialEq, Eq, PartialOrd, Ord)]
pub struct Miss {
    pub path: String,
    /// Counted from 1; 0 for a page as a whole.
    pub line: usize,
    pub what: String,
}

impl fmt::Display for Miss {
    fn fmt(&self, out: &mut fmt::Formatter) -> fmt::Result {
        match self.line {
            0 => write!(out, "{}: {}", self.path, self.what),
            line => write!(out, "{}:{line}: {}", self.path, self.what),
        }
    }
}

/// The files of the repository, in the order of their paths. What is made by cargo (target/) and by rt
/// (the crates' out/) is left out.
pub fn read(root: &Path) -> std::io::Result<Vec<File>> {
    let mut files = Vec::new();
    let mut folders = vec![root.to_path_buf()];
    while let Some(folder) = folders.pop() {
        for entry in std::fs::read_dir(&folder)? {
            let path = entry?.path();
            let name = path.file_name().unwrap_or_default().to_string_lossy().into_owned();
            if path.is_dir() {
                if !["target", "out", ".git"].contains(&name.as_str()) {
                    folders.push(path);
                }
                continue;
            }
            let end = name.rsplit('.').next().unwrap_or("");
            let is_read = ["md", "h", "c", "rt", "antt", "edit"].contains(&end);
            let text = if is_read { std::fs::read_to_string(&path)? } else { String::new() };
            let path = path.strip_prefix(root).expect("it lies below the root");
            files.push(File { path: path.to_string_lossy().into_owned(), text });
        }
    }
    files.sort_by(|one, other| one.path.cmp(&other.path));
    Ok(files)
}

/// All that is missing, in the order of pages and lines.
pub fn misses(files: &[File], tree: &Tree) -> Vec<Miss> {
    let text = |path: &str| {
        files.iter().find(|file| file.path == path).map_or("", |file| file.text.as_str())
    };
    let contracts = resolve::page(CONTRACTS, text(CONTRACTS), tree);
    let promises = resolve::page(PROMISES, text(PROMISES), tree);
    let mut misses = Vec::new();
    for function in &tree.functions {
        if !contracts.functions.contains(function) {
            let what = format!("the public function {function} is not named");
            misses.push(Miss { path: CONTRACTS.to_string(), line: 0, what });
        }
    }
    for edit in &tree.edits {
        if !contracts.edits.contains(edit) && !promises.edits.contains(edit) {
            let what = format!("the edit {edit} is named neither here nor in {PROMISES}");
            misses.push(Miss { path: CONTRACTS.to_string(), line: 0, what });
        }
    }
    misses.extend(contracts.misses);
    misses.extend(promises.misses);
    misses.extend(rules::misses(files, tree));
    misses.sort();
    misses
}
