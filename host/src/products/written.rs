//! How the firmware's source multiplies. A product that is written `a * b` is built only where it is
//! proved that its result fits its type; all other ways to multiply are calls of functions whose
//! names say so (`wrapping_mul`, `overflowing_pow`, `product`) or types for that (`Wrapping`), and a
//! result of those could be cut.

/// A place where the source may multiply in another way than by `*`.
#[derive(Debug, PartialEq, Eq)]
pub struct Written {
    /// Counted from 1.
    pub line: usize,
    pub word: String,
}

/// What a name has in it that stands for a product, or for the whole of one that was cut.
const MARKS: [&str; 5] = ["mul", "pow", "product", "Wrapping", "Saturating"];

/// Each word of the code with such a mark. What stands behind `//` is no code; text between quotes is
/// taken for code too.
pub fn other_than_by_sign(text: &str) -> Vec<Written> {
    let mut found = Vec::new();
    for (at, line) in text.lines().enumerate() {
        let code = line.split("//").next().unwrap_or_default();
        let words = code.split(|c: char| !(c.is_alphanumeric() || c == '_'));
        for word in words.filter(|word| MARKS.iter().any(|mark| word.contains(mark))) {
            found.push(Written { line: at + 1, word: word.to_string() });
        }
    }
    found
}
