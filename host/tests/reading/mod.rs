//! One form for what three languages declare, so that the three can be held to each other:
//! structs with their fields, functions with their parameters, in order, each with its type.
//! A lent slice is here what C passes for it: a pointer, and a length named after it.

pub mod c_header;
pub mod rattle;
pub mod rust;

use std::collections::BTreeMap;

/// Names and types, in order.
pub type Named = Vec<(String, String)>;

#[derive(Clone, Debug, Default, PartialEq, Eq)]
pub struct Declared {
    pub structs: BTreeMap<String, Named>,
    /// The parameters, and the type of the result.
    pub functions: BTreeMap<String, (Named, String)>,
}

/// The text up to the bracket that closes the one at its start, without both.
pub fn inside(text: &str, open: char, close: char) -> &str {
    let mut depth = 0;
    for (at, letter) in text.char_indices() {
        if letter == open {
            depth += 1;
        } else if letter == close {
            depth -= 1;
            if depth == 0 {
                return &text[open.len_utf8()..at];
            }
        }
    }
    panic!("no {close:?} closes: {}", text.lines().next().unwrap_or(""));
}

/// The parts between commas, those that are empty left out.
pub fn parts(text: &str) -> Vec<&str> {
    text.split(',').map(str::trim).filter(|part| !part.is_empty()).collect()
}

/// The text with its words one space apart.
pub fn one_line(text: &str) -> String {
    text.split_whitespace().collect::<Vec<_>>().join(" ")
}

/// The text without what stands behind `//` on each line.
pub fn without_line_comments(text: &str) -> String {
    text.lines().map(|line| line.split("//").next().unwrap_or("")).collect::<Vec<_>>().join("\n")
}

/// A declared `name: Type`, as Rust and Rattle both write it, a `pub` before it left out.
pub fn name_and_type(text: &str) -> (String, String) {
    let (name, kind) =
        text.split_once(':').unwrap_or_else(|| panic!("{text:?} is not of the form NAME: TYPE"));
    let name = name.trim().trim_start_matches("pub ").trim();
    (name.to_string(), one_line(kind))
}

/// What differs between two sides, one line for each thing; empty where they agree.
pub fn differences(one: (&str, &Declared), other: (&str, &Declared)) -> Vec<String> {
    let mut found = Vec::new();
    let ((one_name, one), (other_name, other)) = (one, other);
    compare(&mut found, "struct", (one_name, &one.structs), (other_name, &other.structs));
    compare(&mut found, "function", (one_name, &one.functions), (other_name, &other.functions));
    found
}

fn compare<T: PartialEq + std::fmt::Debug>(
    found: &mut Vec<String>,
    what: &str,
    (one_name, one): (&str, &BTreeMap<String, T>),
    (other_name, other): (&str, &BTreeMap<String, T>),
) {
    for (name, declared) in one {
        match other.get(name) {
            None => found.push(format!("{what} {name} is in {one_name}, not in {other_name}")),
            Some(there) if there != declared => found.push(format!(
                "{what} {name} is\n  {declared:?} in {one_name},\n  {there:?} in {other_name}"
            )),
            Some(_) => {}
        }
    }
    for name in other.keys().filter(|name| !one.contains_key(*name)) {
        found.push(format!("{what} {name} is in {other_name}, not in {one_name}"));
    }
}
