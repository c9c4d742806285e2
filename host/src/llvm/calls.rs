//! A call in LLVM's text: what is called, and what is handed to it.

use crate::llvm::text;

pub struct Call<'a> {
    /// The function; none where it is no name: a pointer, or instructions written out (`asm`).
    pub name: Option<&'a str>,
    pub operands: Vec<&'a str>,
}

/// An instruction that calls, without the name of its result; none if it is another.
pub fn call(right: &str) -> Option<Call<'_>> {
    let calls = ["call ", "tail call ", "musttail call ", "notail call "];
    let rest = calls.iter().find_map(|start| right.strip_prefix(start))?;
    let Some(at) = first_name(rest).filter(|at| rest[*at..].starts_with('@')) else {
        return Some(Call { name: None, operands: Vec::new() });
    };
    let name = text::name(&rest[at..]).unwrap_or_default();
    let after = &rest[at + 1 + name.len()..];
    let brackets = after.find('(').and_then(|at| text::in_brackets(&after[at..]));
    Some(Call { name: Some(name), operands: text::parts(brackets.unwrap_or("")) })
}

/// Where the first name begins that stands in no brackets and no quotes: all that comes before the
/// callee is types and attributes, and some of these have brackets of their own.
fn first_name(words: &str) -> Option<usize> {
    text::outside(words).find(|(_, c)| matches!(c, '%' | '@')).map(|(at, _)| at)
}
