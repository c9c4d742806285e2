//! The words of LLVM's text: names, types, operands.

/// The name that a text begins with, after its `%` or `@`: quoted, or as far as such letters go.
pub fn name(text: &str) -> Option<&str> {
    let text = text.strip_prefix(['%', '@'])?;
    if let Some(quoted) = text.strip_prefix('"') {
        return quoted.split('"').next();
    }
    let is_end = |c: char| !(c.is_ascii_alphanumeric() || "-$._".contains(c));
    text.split(is_end).next().filter(|word| !word.is_empty())
}

/// Every name that follows the given words in a text, as in `label %there`.
pub fn names_after<'a>(text: &'a str, words: &'a str) -> impl Iterator<Item = &'a str> {
    text.split(words).skip(1).filter_map(name)
}

/// An instruction `%name = rest` as its name and the rest; other instructions have no name.
pub fn defined(line: &str) -> (Option<&str>, &str) {
    if line.starts_with('%') {
        if let Some((left, right)) = line.split_once(" = ") {
            return (name(left), right);
        }
    }
    (None, line)
}

/// The characters that stand in no brackets and no quotes, each with its place; brackets and quotes
/// themselves are left out.
pub fn outside(text: &str) -> impl Iterator<Item = (usize, char)> + '_ {
    let (mut depth, mut quoted) = (0i32, false);
    text.char_indices().filter(move |(_, c)| {
        match c {
            '"' => quoted = !quoted,
            _ if quoted => {}
            '(' | '[' | '{' | '<' => depth += 1,
            ')' | ']' | '}' | '>' => depth -= 1,
            _ => return depth == 0,
        }
        false
    })
}

/// Splits at the commas that stand in no brackets and no quotes.
pub fn parts(text: &str) -> Vec<&str> {
    let (mut parts, mut from) = (Vec::new(), 0);
    for (at, _) in outside(text).filter(|(_, c)| *c == ',') {
        parts.push(text[from..at].trim());
        from = at + 1;
    }
    parts.push(text[from..].trim());
    parts
}

/// The text in the brackets that open at the start, without them.
pub fn in_brackets(text: &str) -> Option<&str> {
    let (mut depth, mut quoted) = (0, false);
    for (at, c) in text.char_indices() {
        match c {
            '"' => quoted = !quoted,
            _ if quoted => {}
            '(' => depth += 1,
            ')' => {
                depth -= 1;
                if depth == 0 {
                    return Some(&text[1..at]);
                }
            }
            _ => {}
        }
    }
    None
}

/// The bytes of a type. A struct counts as its fields together, with no holes between.
pub fn bytes(kind: &str) -> Option<u64> {
    let kind = kind.trim();
    if let Some(bits) = kind.strip_prefix('i') {
        return bits.parse::<u64>().ok().map(|bits| bits.div_ceil(8));
    }
    let inner = |open, close| kind.strip_prefix(open)?.strip_suffix(close);
    if let Some(run) = inner('[', ']').or_else(|| inner('<', '>')) {
        let (times, each) = run.split_once(" x ")?;
        return Some(times.trim().parse::<u64>().ok()? * bytes(each)?);
    }
    if let Some(fields) = inner('{', '}') {
        return parts(fields).into_iter().map(bytes).sum();
    }
    match kind {
        "ptr" | "double" => Some(8),
        "float" => Some(4),
        _ => None,
    }
}

/// An operand `type words.. value` as its type and its value.
pub fn operand(text: &str) -> Option<(&str, &str)> {
    let text = text.trim();
    let close = match text.chars().next()? {
        '[' => text.find(']')? + 1,
        '<' => text.find('>')? + 1,
        '{' => text.find('}')? + 1,
        _ => text.find(' ')?,
    };
    let rest = &text[close..];
    let value = match rest.find(['%', '@']) {
        Some(at) => &rest[at..],
        None => rest.rsplit(' ').next()?,
    };
    Some((&text[..close], value))
}
