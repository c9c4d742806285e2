//! What a pointer points into: something that the caller lent, or a local. A parameter of a function
//! that is not exported points into whatever those that call it hand over.

use crate::llvm::blocks::Function;
use crate::llvm::{calls, text};
use std::collections::{BTreeSet, HashMap};

#[derive(Clone, Debug, PartialEq, Eq, PartialOrd, Ord)]
pub enum Place {
    /// What a caller lent: memory, image, table, picks.
    Lent(String),
    /// A local of so many bytes: a table by value, or where a result goes.
    Local(String, u64),
    /// What is handed to a function that no other of the module calls by its name.
    Handed(String),
    /// Not made out.
    Unknown,
}

impl Place {
    pub fn is_lent(&self) -> bool {
        matches!(self, Place::Lent(_))
    }

    /// Whether a table of so many bytes can be here.
    pub fn may_hold(&self, table: u64) -> bool {
        !matches!(self, Place::Local(_, bytes) if *bytes < table)
    }

    pub fn word(&self) -> &'static str {
        match self {
            Place::Lent(_) => "what is lent",
            Place::Local(..) => "a local",
            Place::Handed(_) => "what is handed over",
            Place::Unknown => "somewhere",
        }
    }
}

/// The functions of a module, and what each is handed wherever it is called.
pub struct Module<'a> {
    pub functions: &'a HashMap<String, Function>,
    /// For each function that is called: who calls it, and the operands.
    called: HashMap<&'a str, Vec<(&'a Function, Vec<&'a str>)>>,
}

impl<'a> Module<'a> {
    pub fn new(functions: &'a HashMap<String, Function>) -> Module<'a> {
        let mut called: HashMap<&str, Vec<(&Function, Vec<&str>)>> = HashMap::new();
        for function in functions.values() {
            for line in function.blocks.iter().flat_map(|block| &block.lines) {
                let Some(call) = calls::call(text::defined(line).1) else { continue };
                if let Some(name) = call.name.filter(|name| functions.contains_key(*name)) {
                    called.entry(name).or_default().push((function, call.operands));
                }
            }
        }
        Module { functions, called }
    }

    /// All that a pointer may point into.
    pub fn places(&self, function: &Function, pointer: &str) -> BTreeSet<Place> {
        let mut found = BTreeSet::new();
        self.search(function, pointer, &mut BTreeSet::new(), &mut found);
        found
    }

    /// What a parameter points into: what is lent, or what those that call hand over.
    fn parameter(
        &self,
        function: &Function,
        at: usize,
        seen: &mut BTreeSet<(String, String)>,
        found: &mut BTreeSet<Place>,
    ) {
        let name = &function.parameters[at];
        // The compiler hands over what a parameter pointed to, and then adds `.val` to its name.
        if function.exported || name.contains(".val") {
            found.insert(Place::Lent(in_function(function, name)));
            return;
        }
        let Some(calls) = self.called.get(function.name.as_str()) else {
            found.insert(Place::Handed(in_function(function, name)));
            return;
        };
        for (caller, operands) in calls {
            match operands.get(at).and_then(|operand| text::operand(operand)) {
                Some((_, value)) => self.search(caller, value, seen, found),
                None => {
                    found.insert(Place::Unknown);
                }
            }
        }
    }

    fn search(
        &self,
        function: &Function,
        pointer: &str,
        seen: &mut BTreeSet<(String, String)>,
        found: &mut BTreeSet<Place>,
    ) {
        let Some(name) = pointer.strip_prefix('%').and_then(|_| text::name(pointer)) else {
            found.insert(Place::Unknown);
            return;
        };
        if !seen.insert((function.name.clone(), name.to_string())) {
            return;
        }
        if let Some(at) = function.parameters.iter().position(|parameter| parameter == name) {
            self.parameter(function, at, seen, found);
            return;
        }
        let Some(right) = function.defined.get(name) else {
            found.insert(Place::Unknown);
            return;
        };
        let word = right.split(' ').next().unwrap_or_default();
        match word {
            "alloca" => {
                let kind = text::parts(&right["alloca".len()..])[0];
                let bytes = text::bytes(kind).unwrap_or(u64::MAX);
                found.insert(Place::Local(in_function(function, name), bytes));
            }
            // A run that is lent is handed on as its address and length, so its address is loaded.
            "load" => {
                found.insert(Place::Lent(in_function(function, name)));
            }
            "getelementptr" | "select" | "freeze" => {
                let mut any = false;
                for (kind, value) in text::parts(right).into_iter().filter_map(text::operand) {
                    // the type that is stepped by stands before the first pointer
                    if kind == "ptr" || kind == word {
                        let value = value.trim_start_matches("ptr ");
                        if value.starts_with('%') && points(function, value) {
                            any = true;
                            self.search(function, value, seen, found);
                        }
                    }
                }
                if !any {
                    found.insert(Place::Unknown);
                }
            }
            "phi" => {
                for value in right.split('[').skip(1).filter_map(|pair| pair.split(',').next()) {
                    self.search(function, value.trim(), seen, found);
                }
            }
            _ => {
                found.insert(Place::Unknown);
            }
        }
    }
}

/// A name as that of one function.
fn in_function(function: &Function, name: &str) -> String {
    format!("{name} in {}", function.name)
}

/// Whether a name is a pointer, as far as its own instruction tells.
fn points(function: &Function, value: &str) -> bool {
    let Some(name) = text::name(value) else { return false };
    if function.parameters.iter().any(|parameter| parameter == name) {
        return true;
    }
    let Some(right) = function.defined.get(name) else { return false };
    let pointers = ["alloca ", "getelementptr ", "load ptr", "phi ptr", "inttoptr "];
    pointers.iter().any(|start| right.starts_with(start))
        || (right.starts_with("select ") && right.contains("ptr "))
}
