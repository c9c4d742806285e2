//! What the C header declares, in the words of Rust: `const uint8_t *memory` is `memory: *const
//! u8`, and `rosadenca_part` is `Part`.

use super::{inside, one_line, Declared};

/// C++ keeps the word `protected` for itself, so the header has another for that one field.
const OTHER_WORDS: [(&str, &str); 1] = [("write_protected", "protected")];

/// In C a struct and a function cannot both be `rosadenca_place`, so the struct has another name; and
/// what is lent in all has the name that the drives have in the source.
const OTHER_STRUCTS: [(&str, &str); 2] =
    [("rosadenca_disk_place", "Place"), ("rosadenca_drives", "LentDrives")];

/// What stands in the header for its short forms alone, which the archive does not have: a struct, and
/// functions with bodies.
const SHORT_STRUCT: &str = "typedef struct rosadenca_lent {";
const SHORT_FUNCTION: &str = "static inline ";

/// What the header has a C compiler test; it declares nothing.
const TESTS: [&str; 2] = ["ROSADENCA_HOLDS(", "ROSADENCA_AT("];

/// Reads the header.
pub fn declared(file: &str) -> Declared {
    let text = without_the_rest(file);
    let mut declared = Declared::default();
    let mut rest = text.as_str();
    while let Some(at) = rest.find("typedef struct ") {
        let (before, from) = rest.split_at(at);
        read_functions(before, &mut declared);
        let open = from.find('{').expect("a struct has fields");
        let name = from["typedef struct ".len()..open].trim();
        let fields = inside(&from[open..], '{', '}');
        let after = &from[open + fields.len() + 2..];
        let (again, after) = after.split_once(';').expect("a typedef ends");
        assert_eq!(name, again.trim(), "a struct and its typedef have one name");
        let fields = fields.split(';').map(one_line).filter(|field| !field.is_empty());
        let fields = fields.map(|field| field_of(file, &field)).collect();
        declared.structs.insert(struct_name(name).expect("our structs have our prefix"), fields);
        rest = after;
    }
    read_functions(rest, &mut declared);
    declared
}

/// The header without its comments, its lines for the preprocessor, what it has the compiler test
/// and its enums of constants.
fn without_the_rest(file: &str) -> String {
    let mut text = String::new();
    let mut rest = file;
    while let Some((before, after)) = rest.split_once("/*") {
        text.push_str(before);
        rest = after.split_once("*/").expect("a comment ends").1;
    }
    text.push_str(rest);
    // a line that goes on is one line
    let text = text.replace("\\\n", " ");
    let is_test = |line: &str| TESTS.iter().any(|test| line.starts_with(test));
    let kept = text.lines().filter(|line| !line.trim_start().starts_with('#') && !is_test(line));
    let mut text = kept.collect::<Vec<_>>().join("\n");
    while let Some(at) = text.find("enum {") {
        let end = at + text[at..].find(';').expect("an enum ends") + 1;
        text.replace_range(at..end, "");
    }
    without_short_forms(text)
}

fn without_short_forms(mut text: String) -> String {
    while let Some(at) = text.find(SHORT_FUNCTION) {
        let open = at + text[at..].find('{').expect("a short form has a body");
        let end = open + inside(&text[open..], '{', '}').len() + 2;
        text.replace_range(at..end, "");
    }
    let at = text.find(SHORT_STRUCT).expect("the header has short forms");
    let end = at + text[at..].find("} rosadenca_lent;").expect("the struct ends");
    text.replace_range(at..end + "} rosadenca_lent;".len(), "");
    text
}

fn read_functions(text: &str, declared: &mut Declared) {
    // what C++ needs around the declarations
    let text = text.replace("extern \"C\" {", "");
    for function in text.split(';').map(one_line).filter(|function| function.contains('(')) {
        let open = function.find('(').expect("it has a bracket");
        let (name, result) = name_and_type(&function[..open]);
        let list = inside(&function[open..], '(', ')');
        let parameters = super::parts(list).into_iter().map(name_and_type).collect();
        let before = declared.functions.insert(name.clone(), (parameters, result));
        assert!(before.is_none(), "{name} is declared twice");
    }
}

/// A field of a struct. An array, `TYPE name[CONSTANT]`, has as many elements as the header says of
/// that constant.
fn field_of(file: &str, text: &str) -> (String, String) {
    let Some((text, rest)) = text.split_once('[') else {
        return name_and_type(text);
    };
    let (name, element) = name_and_type(text);
    let length = constant(file, rest.trim_end_matches(']'));
    (name, format!("[{element}; {length}]"))
}

/// The value of a constant of the header.
fn constant(file: &str, name: &str) -> usize {
    let found = file.split_once(&format!("{name} = "));
    let (_, value) = found.unwrap_or_else(|| panic!("the header has no constant {name}"));
    let digits = value.find(|letter: char| !letter.is_ascii_digit()).unwrap_or(value.len());
    value[..digits].parse().unwrap_or_else(|_| panic!("{name} is no decimal number"))
}

/// A declared `TYPE name`, as a name and a type of Rust.
fn name_and_type(text: &str) -> (String, String) {
    let at = text.rfind([' ', '*']).unwrap_or_else(|| panic!("{text:?} has no name")) + 1;
    let (kind, name) = text.split_at(at);
    let name = OTHER_WORDS.iter().find(|(c, _)| *c == name).map_or(name, |(_, rust)| rust);
    (name.to_string(), type_of(kind.trim()))
}

fn type_of(kind: &str) -> String {
    if let Some(element) = kind.strip_suffix('*') {
        let element = element.trim();
        return match element.strip_prefix("const ") {
            Some(element) => format!("*const {}", type_of(element)),
            None => format!("*mut {}", type_of(element)),
        };
    }
    let name = match kind {
        "uint8_t" => "u8",
        "uint16_t" => "u16",
        "uint32_t" => "u32",
        "uint64_t" => "u64",
        "size_t" => "usize",
        "bool" => "bool",
        "void" => "()",
        other => return struct_name(other).unwrap_or_else(|| panic!("{other:?} is no known type")),
    };
    name.to_string()
}

/// `rosadenca_part` is `Part`.
fn struct_name(name: &str) -> Option<String> {
    if let Some((_, other)) = OTHER_STRUCTS.iter().find(|(c, _)| *c == name) {
        return Some(other.to_string());
    }
    let words = name.strip_prefix("rosadenca_")?.split('_');
    Some(words.map(|word| word[..1].to_uppercase() + &word[1..]).collect())
}
