//! What the Rust wrapper declares: its #[repr(C)] structs and its extern block.

use super::{inside, name_and_type, one_line, parts, without_line_comments, Declared};

/// Reads the file that holds the structs and the extern block.
pub fn declared(file: &str) -> Declared {
    let text = without_line_comments(file);
    let mut declared = Declared::default();
    for (at, _) in text.match_indices("pub struct ") {
        let rest = &text[at + "pub struct ".len()..];
        let open = rest.find('{').expect("a struct has fields");
        let name = rest[..open].trim().to_string();
        let marks = text[..at].rsplit('}').next().unwrap_or("");
        assert!(marks.contains("#[repr(C)]"), "struct {name} has no #[repr(C)]");
        let fields = parts(inside(&rest[open..], '{', '}')).into_iter().map(name_and_type);
        declared.structs.insert(name, fields.collect());
    }
    let start = text.find("extern \"C\" {").expect("there is an extern block");
    let block = inside(&text[start + "extern \"C\" ".len()..], '{', '}');
    for function in block.split(';').map(one_line).filter(|function| !function.is_empty()) {
        let function = function.trim_start_matches("pub(crate) ").trim_start_matches("fn ");
        let open = function.find('(').expect("a function has parameters");
        let list = inside(&function[open..], '(', ')');
        let after = function[open + list.len() + 2..].trim();
        let result = after.strip_prefix("->").map_or("()", str::trim).to_string();
        let parameters = parts(list).into_iter().map(name_and_type).collect();
        declared.functions.insert(function[..open].to_string(), (parameters, result));
    }
    declared
}
