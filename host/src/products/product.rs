//! One product, as an instruction of LLVM's text has it: how wide it is, and what is multiplied.

use crate::llvm::{calls, text};

pub struct Product<'a> {
    /// The name of its result.
    pub result: &'a str,
    /// How wide the processor has to multiply.
    pub bits: u32,
    pub factors: [Factor; 2],
}

pub enum Factor {
    /// A constant: one number, or one for each lane of a vector.
    Numbers(Vec<i128>),
    /// What is known only when it runs; a constant of any other form counts as such.
    Value,
}

impl Factor {
    /// A shift does what a product by this would do. The text has numbers with a sign, so the
    /// highest bit alone is the least number.
    pub fn is_power_of_two(&self, bits: u32) -> bool {
        let highest = |n: i128| (1..=128).contains(&bits) && n == i128::MIN >> (128 - bits);
        let one_bit = |n: &i128| (*n > 0 && *n & (*n - 1) == 0) || highest(*n);
        matches!(self, Factor::Numbers(numbers) if numbers.iter().all(one_bit))
    }

    pub fn is(&self, number: u64) -> bool {
        matches!(self, Factor::Numbers(numbers) if numbers[..] == [i128::from(number)])
    }
}

/// The product that an instruction makes; none if it makes none. What speaks of one and is not
/// understood is an error.
pub fn read(line: &str) -> Result<Option<Product<'_>>, String> {
    let (result, right) = text::defined(line);
    let called = calls::call(right).and_then(|call| Some((call.name?, call.operands)));
    let of_llvm = called.filter(|(name, _)| name.starts_with("llvm.") && name.contains("mul"));
    let made = match (of_llvm, speaks_of_products(line)) {
        (None, 0) => return Ok(None),
        (None, 1) => instruction(right),
        (Some((name, operands)), 0) => intrinsic(name, &operands),
        _ => None,
    };
    let (result, (bits, factors)) =
        result.zip(made).ok_or_else(|| format!("a product that is not understood: {line}"))?;
    Ok(Some(Product { result, bits, factors }))
}

/// All of a product but its name: bits and factors.
type Made = (u32, [Factor; 2]);

/// How many words of a line, other than names and what is in quotes or a comment, have `mul` in
/// them: that of an instruction, or of a constant that has to be worked out.
pub fn speaks_of_products(line: &str) -> usize {
    let plain = line.split('"').step_by(2).collect::<Vec<_>>().join("\"");
    let is_end = |c: char| !(c.is_ascii_alphanumeric() || "%@!#$._-".contains(c));
    let words = plain.split(';').next().unwrap_or_default().split(is_end);
    words.filter(|word| word.contains("mul") && !word.starts_with(['%', '@', '!', '#'])).count()
}

/// `mul flags.. type one, other`, and what may be noted after it.
fn instruction(right: &str) -> Option<Made> {
    let mut rest = right.strip_prefix("mul ")?;
    while let Some(after) = ["nuw ", "nsw "].iter().find_map(|flag| rest.strip_prefix(flag)) {
        rest = after;
    }
    let operands = text::parts(rest).into_iter().filter(|part| !part.starts_with('!'));
    let [one, other] = operands.collect::<Vec<_>>()[..] else { return None };
    let (bits, one) = typed(one)?;
    Some((bits, [factor(one)?, factor(other)?]))
}

/// A product by a function of LLVM's own. To see that a result does not fit, or to shift it before
/// it is cut, takes the whole of it: so these count as twice as wide as what they multiply.
fn intrinsic(name: &str, operands: &[&str]) -> Option<Made> {
    let multiplies = ["umul.with.overflow.", "smul.with.overflow.", "umul.fix.", "smul.fix."];
    let name = name.strip_prefix("llvm.")?;
    if !multiplies.iter().any(|start| name.starts_with(start)) {
        return None;
    }
    let ((bits, one), (_, other)) = (typed(operands.first()?)?, typed(operands.get(1)?)?);
    Some((bits.checked_mul(2)?, [factor(one)?, factor(other)?]))
}

/// An operand as the bits of its type, each lane's of a vector, and the words after it.
fn typed(operand: &str) -> Option<(u32, &str)> {
    let end = if operand.starts_with('<') { operand.find('>')? + 1 } else { operand.find(' ')? };
    let (kind, rest) = operand.split_at(end);
    let lanes = kind.strip_prefix('<').and_then(|lanes| lanes.strip_suffix('>'));
    let each = lanes.map_or(Some(kind), |lanes| lanes.rsplit(" x ").next())?;
    Some((each.strip_prefix('i')?.parse().ok()?, rest.trim()))
}

/// What is multiplied, from words of which the last is the value; none if it cannot be read.
fn factor(words: &str) -> Option<Factor> {
    if let Some(at) = words.find('%') {
        return text::name(&words[at..]).map(|_| Factor::Value);
    }
    if let Some(at) = words.find("splat (").or_else(|| words.find('<')) {
        return Some(lanes(&words[at..]).map_or(Factor::Value, Factor::Numbers));
    }
    let last = words.rsplit(' ').next()?;
    if ["poison", "undef", "zeroinitializer"].contains(&last) {
        return Some(Factor::Value);
    }
    Some(Factor::Numbers(vec![last.parse().ok()?]))
}

/// The numbers of a constant vector: `splat (i64 8)`, or `<i64 8, i64 16>`.
fn lanes(words: &str) -> Option<Vec<i128>> {
    let inner = |open, close| words.strip_prefix(open)?.strip_suffix(close);
    let all = inner("splat (", ")").or_else(|| inner("<", ">"))?;
    text::parts(all).into_iter().map(|lane| typed(lane)?.1.parse().ok()).collect()
}
