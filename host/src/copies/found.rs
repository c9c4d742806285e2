//! What one instruction copies: all of a table, or a piece of something.

use crate::copies::places::{Module, Place};
use crate::copies::Sizes;
use crate::llvm::blocks::Function;
use crate::llvm::calls::{self, Call};
use crate::llvm::text;
use std::collections::BTreeSet;

pub enum Found {
    /// At least a table's bytes go from one place to another, or as many as is known only when it
    /// runs.
    Copy(String),
    /// So many bytes, fewer than a table's.
    Piece(Piece),
    /// At least a table's bytes are filled with one.
    Fill,
    /// Another function of the module is called.
    Call(String),
}

pub struct Piece {
    pub bytes: u64,
    pub from: BTreeSet<Place>,
    pub to: BTreeSet<Place>,
}

impl Piece {
    /// Whether it may be a part of a table's copy: a table can be on both sides, the sides differ,
    /// and they are not both lent, as memory and image are where a sector moves.
    pub fn may_be_of_table(&self, table: u64) -> bool {
        let holds = |side: &BTreeSet<Place>| side.iter().any(|place| place.may_hold(table));
        let lent = |side: &BTreeSet<Place>| side.iter().all(Place::is_lent);
        holds(&self.from)
            && holds(&self.to)
            && self.from != self.to
            && !(lent(&self.from) && lent(&self.to))
    }

    fn words(&self, bytes: &str) -> String {
        let side = |side: &BTreeSet<Place>| {
            side.iter().map(Place::word).collect::<BTreeSet<_>>().into_iter().collect::<Vec<_>>()
        };
        let (from, to) = (side(&self.from).join(" or "), side(&self.to).join(" or "));
        format!("{bytes} bytes from {from} to {to}")
    }
}

/// What an instruction copies, fills or calls; the error is a call that cannot be followed.
pub fn found(
    module: &Module,
    function: &Function,
    line: &str,
    sizes: Sizes,
) -> Result<Option<Found>, String> {
    let (_, right) = text::defined(line);
    if right.starts_with("store ") {
        return Ok(stored(module, function, right).map(Found::Piece));
    }
    let Some(Call { name, operands }) = calls::call(right) else { return Ok(None) };
    let name =
        name.ok_or_else(|| format!("{}: a call that is not followed: {right}", function.name))?;
    Ok(called(module, function, name, &operands, sizes))
}

/// A store of what was loaded: a piece goes from one place to another.
fn stored(module: &Module, function: &Function, right: &str) -> Option<Piece> {
    let operands = text::parts(right.strip_prefix("store ")?);
    let (kind, value) = text::operand(operands.first()?)?;
    let (_, to) = text::operand(operands.get(1)?)?;
    let loaded = function.defined.get(text::name(value)?)?.strip_prefix("load ")?;
    let (_, from) = text::operand(text::parts(loaded).get(1)?)?;
    let (from, to) = (module.places(function, from), module.places(function, to));
    Some(Piece { bytes: text::bytes(kind)?, from, to })
}

fn called(
    module: &Module,
    function: &Function,
    name: &str,
    operands: &[&str],
    sizes: Sizes,
) -> Option<Found> {
    let copies = ["llvm.memcpy.", "llvm.memmove."].iter().any(|start| name.starts_with(start));
    if copies || name == "memcpy" || name == "memmove" {
        return copied(module, function, operands, sizes);
    }
    if name.starts_with("llvm.memset.") || name == "memset" {
        let whole = operands.get(2).and_then(|length| constant(length));
        return whole.is_some_and(|bytes| bytes >= sizes.table).then_some(Found::Fill);
    }
    if name.starts_with("llvm.") {
        return None;
    }
    Some(Found::Call(name.to_string()))
}

fn constant(operand: &str) -> Option<u64> {
    text::operand(operand)?.1.parse().ok()
}

fn copied(module: &Module, function: &Function, operands: &[&str], sizes: Sizes) -> Option<Found> {
    let side = |at: usize| {
        let (_, pointer) = operands.get(at).and_then(|operand| text::operand(operand))?;
        Some(module.places(function, pointer))
    };
    let (to, from) = (side(0)?, side(1)?);
    let bytes = operands.get(2).and_then(|length| constant(length));
    let piece = Piece { bytes: bytes.unwrap_or(0), from, to };
    match bytes {
        Some(bytes) if bytes >= sizes.table => Some(Found::Copy(piece.words(&bytes.to_string()))),
        Some(_) => Some(Found::Piece(piece)),
        None if piece.may_be_of_table(sizes.table) => Some(Found::Copy(piece.words("so many"))),
        None => None,
    }
}
