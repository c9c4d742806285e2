//! How often a table is copied: reads the firmware's LLVM module, as the compiler has optimised it,
//! and counts on each exported function the copies of a table's size along the way through it that
//! has most. What is seen and what is not is told in docs/DECISIONS.md.

pub mod found;
pub mod places;
pub mod ways;

use crate::declared::Record;
use crate::llvm::blocks::{self, Function};
use std::collections::HashMap;
use ways::Ways;

/// A record's bytes, as the archive lays it out, and those of a table of as many as a chain has.
#[derive(Clone, Copy)]
pub struct Sizes {
    pub record: u64,
    pub table: u64,
}

impl Default for Sizes {
    fn default() -> Sizes {
        let record = size_of::<Record>() as u64;
        Sizes { record, table: 32 * record }
    }
}

/// The exported functions that take a table, and the most copies of one that each may make.
pub const LIMITS: [(&str, usize); 4] = [
    ("rosadenca_walk", 0),
    ("rosadenca_pick", 0),
    ("rosadenca_run_picks", 0),
    ("rosadenca_run_written", 0),
];

/// What was counted on one exported function.
pub struct Counted {
    pub name: &'static str,
    pub limit: usize,
    /// Each copy along the way that has most, in words; none if there is no end to them.
    pub copies: Option<Vec<String>>,
    /// Fills of a table's size with one byte, along the way that has most of them.
    pub fills: Option<usize>,
}

impl Counted {
    pub fn within(&self) -> bool {
        self.copies.as_ref().is_some_and(|copies| copies.len() <= self.limit)
    }

    pub fn number(&self) -> String {
        match &self.copies {
            None => "without end (in a loop)".to_string(),
            Some(copies) => copies.len().to_string(),
        }
    }
}

/// Whether a function of the module is this exported one. The module of a program, as tools/copies
/// has it for planted copies, exports it under a name of its own.
fn is_exported(function: &str, name: &str) -> bool {
    function == name || function.strip_prefix("inner_") == Some(name)
}

/// Counts on every exported function that takes a table.
pub fn count(module: &str, sizes: Sizes) -> Result<Vec<Counted>, String> {
    let mut functions: HashMap<String, Function> = HashMap::new();
    for mut function in blocks::functions(module)? {
        function.exported = LIMITS.iter().any(|(name, _)| is_exported(&function.name, name));
        functions.insert(function.name.clone(), function);
    }
    let mut ways = Ways::new(&functions, sizes);
    let mut counted = Vec::new();
    for (name, limit) in LIMITS {
        let function = functions
            .keys()
            .find(|function| is_exported(function, name))
            .ok_or_else(|| format!("the module has no function {name}"))?;
        let way = ways.of(function)?;
        let fills = way.fills.number();
        counted.push(Counted { name, limit, copies: way.copies.words(), fills });
    }
    Ok(counted)
}

/// The table of what was counted, for the page and for the terminal.
pub fn table(counted: &[Counted]) -> String {
    let mut text = String::from(
        "| function | copies of a table | at most | fills of a table |\n|---|---|---|---|\n",
    );
    for path in counted {
        let verdict = if path.within() { "" } else { " **exceeded**" };
        let fills = path.fills.map_or("without end".to_string(), |fills| fills.to_string());
        text += &format!(
            "| `{}` | {} | {}{verdict} | {fills} |\n",
            path.name,
            path.number(),
            path.limit
        );
    }
    text
}
