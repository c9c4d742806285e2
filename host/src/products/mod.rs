//! Products that a small processor cannot take, which multiplies 32 bits by 32 into 32: looks for
//! them in the firmware's LLVM module, as the compiler has optimised it, and for products whose
//! result could be cut in its source. What is seen and what is not is told in docs/DECISIONS.md.

pub mod product;
pub mod unseen;
pub mod uses;
pub mod written;

use crate::declared::Record;
use crate::llvm::blocks::{self, Function};
use product::Product;

/// The bits that the processor multiplies into.
const WIDEST: u32 = 32;

/// The sizes of what tables are made of. Where code goes through a table, the compiler multiplies
/// an index by one of them, and the source has no such product. Only a record's size is no power of
/// two: a footprint has 32 bytes, a range of a link list 8.
const ELEMENTS: [u64; 1] = [size_of::<Record>() as u64];

/// A product that may not be.
pub struct Found {
    pub function: String,
    pub bits: u32,
    pub instruction: String,
}

/// What was seen in the optimised module: how many products of each kind there are that may be, and
/// those that may not.
#[derive(Default)]
pub struct Optimised {
    pub narrow: usize,
    pub shifts: usize,
    pub indices: usize,
    pub wide: Vec<Found>,
}

/// Looks at every product of the optimised module.
pub fn optimised(module: &str) -> Result<Optimised, String> {
    let mut seen = Optimised::default();
    each_product(module, |function, product, found| {
        if product.bits <= WIDEST {
            seen.narrow += 1;
        } else if product.factors.iter().any(|factor| factor.is_power_of_two(product.bits)) {
            seen.shifts += 1;
        } else if is_index(function, product) {
            seen.indices += 1;
        } else {
            seen.wide.push(found);
        }
    })?;
    Ok(seen)
}

/// An index times the size of what it goes through. The firmware's modules have it for addresses
/// and for the length of a copy alone. A compiler could also compare it, where it counts a loop by
/// bytes; that did not occur, for x86-64 or for Arm, and is not allowed: a product of the source
/// could be compared as well.
fn is_index(function: &Function, product: &Product) -> bool {
    let by_size = product.factors.iter().any(|factor| ELEMENTS.iter().any(|size| factor.is(*size)));
    by_size && uses::only_for_addresses(function, product.result)
}

/// How many products there are in the module as it was handed over; the error is one that is not
/// understood. The toolchain marks none as one whose result fits, so that is asked of the source
/// (`written`).
pub fn handed_over(module: &str) -> Result<usize, String> {
    let mut products = 0;
    each_product(module, |_, _, _| products += 1)?;
    Ok(products)
}

/// Calls `with` for every product of a module; the last argument is what is told if it may not be.
fn each_product(
    module: &str,
    mut with: impl FnMut(&Function, &Product, Found),
) -> Result<(), String> {
    let functions = blocks::functions(module)?;
    unseen::none_unseen(module, &functions)?;
    for function in &functions {
        for line in function.blocks.iter().flat_map(|block| &block.lines) {
            let read = product::read(line).map_err(|what| format!("{}: {what}", function.name))?;
            if let Some(product) = read {
                let (name, instruction) = (function.name.clone(), line.clone());
                with(function, &product, Found { function: name, bits: product.bits, instruction });
            }
        }
    }
    Ok(())
}

impl Optimised {
    fn rows(&self) -> [(&'static str, usize); 4] {
        [
            ("optimised: of at most 32 bits", self.narrow),
            ("optimised: wider, by a power of two", self.shifts),
            ("optimised: wider, an index times the size of a record", self.indices),
            ("optimised: wider, of another kind (none may be)", self.wide.len()),
        ]
    }
}

/// The table of what was seen, for the terminal.
pub fn table(optimised: &Optimised, handed_over: Option<usize>) -> String {
    let mut text = String::from("| products in the module | number |\n|---|---|\n");
    let second = handed_over.map(|products| ("handed over: all", products));
    for (what, number) in optimised.rows().into_iter().chain(second) {
        text += &format!("| {what} | {number} |\n");
    }
    text
}
