//! The functions of a module, each as its blocks, and which block leads to which.

use crate::llvm::text;
use std::collections::HashMap;

pub struct Block {
    /// Instructions, one text each.
    pub lines: Vec<String>,
    /// The blocks that it leads to.
    pub next: Vec<usize>,
}

pub struct Function {
    pub name: String,
    pub exported: bool,
    pub parameters: Vec<String>,
    pub blocks: Vec<Block>,
    /// What each name is: the right side of its instruction.
    pub defined: HashMap<String, String>,
}

/// A line that begins a block gives the block's name.
fn label(line: &str) -> Option<String> {
    if line.starts_with(' ') {
        return None;
    }
    let name = line.split(';').next()?.trim().strip_suffix(':')?;
    Some(name.trim_matches('"').to_string())
}

/// The name and the parameters of a line that begins a function.
fn head(line: &str) -> Option<(String, Vec<String>)> {
    let at = &line[line.find('@')?..];
    let name = text::name(at)?;
    let brackets = &at[at
        .find(&format!("{name}\"("))
        .map_or_else(|| at.find('('), |found| Some(found + name.len() + 1))?..];
    let parameters = text::parts(text::in_brackets(brackets)?)
        .into_iter()
        .filter_map(|part| text::name(&part[part.find('%')?..]))
        .map(str::to_string)
        .collect();
    Some((name.to_string(), parameters))
}

fn function(first: &str, body: &[&str]) -> Result<Function, String> {
    let (name, parameters) = head(first).ok_or_else(|| format!("not understood: {first}"))?;
    // each block's name and its lines; the first may have no name
    let mut named: Vec<(String, Vec<String>)> = Vec::new();
    for line in body.iter().filter(|line| !line.trim().is_empty()) {
        if let Some(label) = label(line) {
            named.push((label, Vec::new()));
            continue;
        }
        if named.is_empty() {
            named.push((String::new(), Vec::new()));
        }
        let lines = &mut named.last_mut().expect("one was pushed").1;
        // a list of cases goes over several lines
        let goes_on =
            lines.last().is_some_and(|last| last.starts_with("switch ") && !last.ends_with(']'));
        if goes_on {
            let last = lines.last_mut().expect("there is one");
            *last = format!("{last} {}", line.trim());
        } else {
            lines.push(line.trim().to_string());
        }
    }
    let index: HashMap<String, usize> =
        named.iter().enumerate().map(|(at, (name, _))| (name.clone(), at)).collect();
    let mut defined = HashMap::new();
    let mut blocks = Vec::new();
    for (_, lines) in named {
        let mut next = Vec::new();
        for line in &lines {
            for to in text::names_after(line, "label ") {
                let to = index.get(to).ok_or_else(|| format!("{name}: no block {to}"))?;
                next.push(*to);
            }
            if let (Some(result), right) = text::defined(line) {
                defined.insert(result.to_string(), right.to_string());
            }
        }
        blocks.push(Block { lines, next });
    }
    Ok(Function { name, exported: false, parameters, blocks, defined })
}

/// All functions that the module defines.
pub fn functions(module: &str) -> Result<Vec<Function>, String> {
    let mut all = Vec::new();
    let mut open: Option<(&str, Vec<&str>)> = None;
    for line in module.lines() {
        if line.starts_with("define ") {
            open = Some((line, Vec::new()));
        } else if line == "}" {
            if let Some((first, body)) = open.take() {
                all.push(function(first, &body)?);
            }
        } else if let Some((_, body)) = &mut open {
            body.push(line);
        }
    }
    Ok(all)
}
