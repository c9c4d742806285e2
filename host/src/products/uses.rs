//! Where a value of a function leads to: whether all that is made of it is an address or a length.

use crate::llvm::blocks::Function;
use crate::llvm::{calls, text};
use std::collections::HashSet;

enum Use<'a> {
    /// The offset in bytes of an address, or how many bytes are copied or filled.
    Address,
    /// Another value that holds it, or is a sum or a difference with it.
    Value(&'a str),
    /// Anything else.
    Other,
}

/// Whether a value is used for addresses and for the lengths of copies and fills alone, and for one
/// of them at least.
pub fn only_for_addresses(function: &Function, value: &str) -> bool {
    let lines = || function.blocks.iter().flat_map(|block| &block.lines);
    let (mut open, mut seen) = (vec![value], HashSet::new());
    let mut found = false;
    while let Some(value) = open.pop() {
        if !seen.insert(value) {
            continue;
        }
        for line in lines().filter(|line| is_used(value, text::defined(line).1)) {
            match used(value, line) {
                Use::Address => found = true,
                Use::Value(further) => open.push(further),
                Use::Other => return false,
            }
        }
    }
    found
}

fn is_used(value: &str, right: &str) -> bool {
    right.match_indices('%').any(|(at, _)| text::name(&right[at..]) == Some(value))
}

fn used<'a>(value: &str, line: &'a str) -> Use<'a> {
    let (result, right) = text::defined(line);
    let word = right.split(' ').next().unwrap_or_default();
    let address = match word {
        "phi" | "select" | "freeze" | "add" | "sub" => {
            return result.map_or(Use::Other, Use::Value);
        }
        "getelementptr" => is_offset(value, right),
        _ => is_length(value, right),
    };
    if address {
        Use::Address
    } else {
        Use::Other
    }
}

/// `getelementptr flags.. i8, ptr base, i64 value`: with any other type than `i8` the value would
/// be multiplied once more.
fn is_offset(value: &str, right: &str) -> bool {
    let operands = text::parts(right);
    let [kind, _, offset] = operands[..] else { return false };
    kind.ends_with(" i8") && is_used(value, offset)
}

/// The third operand of a copy or a fill: the others are of other types.
fn is_length(value: &str, right: &str) -> bool {
    let Some(call) = calls::call(right) else { return false };
    let moves = ["llvm.memcpy.", "llvm.memmove.", "llvm.memset."];
    let moved = call.name.is_some_and(|name| moves.iter().any(|start| name.starts_with(start)));
    moved && call.operands.get(2).is_some_and(|length| is_used(value, length))
}
