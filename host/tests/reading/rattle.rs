//! What the firmware's Rattle source exports: every function marked `pub extern "C"`, and every
//! struct that one of them takes or gives, or that lies in such a struct.

use super::{inside, name_and_type, one_line, parts, without_line_comments, Declared, Named};
use std::collections::BTreeMap;

/// Reads all the files of the source together.
pub fn declared(files: &[String]) -> Declared {
    let text = without_line_comments(&files.join("\n"));
    let functions = functions_in(&text);
    let all = structs_in(&text);
    let mut structs = BTreeMap::new();
    for (parameters, result) in functions.values() {
        for kind in parameters.iter().map(|(_, kind)| kind).chain([result]) {
            let kind = kind.trim_start_matches("*const ").trim_start_matches("*mut ");
            export(kind, &all, &mut structs);
        }
    }
    Declared { structs, functions }
}

/// Takes a struct among those that are exported, with the structs of its fields and of the elements
/// of arrays among these; a type that is no struct is passed over.
fn export(
    kind: &str,
    all: &BTreeMap<String, (Named, bool)>,
    structs: &mut BTreeMap<String, Named>,
) {
    let Some((fields, repr_c)) = all.get(kind) else {
        return;
    };
    assert!(repr_c, "struct {kind} is exported, and has no #[repr(C)]");
    structs.insert(kind.to_string(), fields.clone());
    for (_, field) in fields {
        export(element_of(field), all, structs);
    }
}

/// The type of the elements, where a type is an array; else the type itself.
fn element_of(kind: &str) -> &str {
    let inside = kind.strip_prefix('[').and_then(|rest| rest.split_once(';'));
    inside.map_or(kind, |(element, _)| element)
}

/// Every struct with named fields, and whether it is marked #[repr(C)].
fn structs_in(text: &str) -> BTreeMap<String, (Named, bool)> {
    let mut found = BTreeMap::new();
    for (at, _) in text.match_indices("pub struct ") {
        let rest = &text[at + "pub struct ".len()..];
        let end = rest.find(['{', '(', ';']).expect("a struct has fields or ends");
        if !rest[end..].starts_with('{') {
            continue;
        }
        let name = rest[..end].trim().to_string();
        let fields = parts(inside(&rest[end..], '{', '}')).into_iter().map(name_and_type);
        let repr_c = attributes_before(&text[..at]).contains(&"#[repr(C)]");
        let before = found.insert(name.clone(), (fields.collect(), repr_c));
        assert!(before.is_none(), "two structs have the name {name}");
    }
    found
}

/// The attributes of an item, a line each, in the text that ends right before it.
fn attributes_before(text: &str) -> Vec<&str> {
    let lines = text.trim_end().lines().rev().map(str::trim);
    lines.take_while(|line| line.starts_with("#[")).collect()
}

/// Every exported function. One that is `extern "C"` without #[unsafe(no_mangle)] would have no plain
/// name.
fn functions_in(text: &str) -> BTreeMap<String, (Named, String)> {
    let mut found = BTreeMap::new();
    for (at, _) in text.match_indices("extern \"C\" fn ") {
        let rest = &text[at + "extern \"C\" fn ".len()..];
        let open = rest.find('(').expect("a function has parameters");
        // a lifetime says nothing of how a parameter is passed
        let name = rest[..open].split('<').next().unwrap_or("").trim().to_string();
        let before = text[..at].trim_end();
        let marked = before
            .strip_suffix("pub")
            .is_some_and(|b| attributes_before(b).contains(&"#[unsafe(no_mangle)]"));
        assert!(marked, "{name} is extern \"C\" and not '#[unsafe(no_mangle)] pub'");
        let list = inside(&rest[open..], '(', ')');
        let after = rest[open + list.len() + 2..].trim_start();
        let parameters = parts(list).into_iter().flat_map(|part| passed(name_and_type(part)));
        let before = found.insert(name.clone(), (parameters.collect(), result_in(after)));
        assert!(before.is_none(), "two functions have the name {name}");
    }
    found
}

/// The type of the result: what stands between `->` and the contract or the body.
fn result_in(after: &str) -> String {
    let Some(rest) = after.strip_prefix("->") else {
        return "()".to_string();
    };
    let end = ["requires", "ensures", "{"].iter().filter_map(|word| rest.find(word)).min();
    plain(&one_line(&rest[..end.expect("a function has a body")]))
}

/// A parameter as C passes it: a slice is a pointer, then a length.
fn passed((name, kind): (String, String)) -> Named {
    let kind = match kind.strip_prefix("&'") {
        Some(named) => format!("&{}", named.split_once(' ').expect("a type after the lifetime").1),
        None => kind,
    };
    let slice = |pointer: &str, element: &str| {
        let element = plain(element.trim_end_matches(']'));
        vec![
            (name.clone(), format!("{pointer} {element}")),
            (format!("{name}_length"), "usize".to_string()),
        ]
    };
    if let Some(element) = kind.strip_prefix("&mut [") {
        slice("*mut", element)
    } else if let Some(element) = kind.strip_prefix("&[") {
        slice("*const", element)
    } else {
        vec![(name, plain(&kind))]
    }
}

/// A type's own name, without the path to it.
fn plain(kind: &str) -> String {
    kind.rsplit("::").next().unwrap_or(kind).trim().to_string()
}
