//! What could multiply out of sight of this search, and is an error for that: a call that leads out
//! of the module, instructions written out for one processor, a product outside every function.

use crate::llvm::blocks::Function;
use crate::llvm::calls;
use crate::llvm::text;
use crate::products::product::speaks_of_products;
use std::collections::HashSet;

/// An error if something in a module could multiply unseen, or if the module is not whole.
pub fn none_unseen(module: &str, functions: &[Function]) -> Result<(), String> {
    if functions.is_empty() {
        return Err("the module has no function".to_string());
    }
    nothing_outside(module)?;
    let defined: HashSet<&str> = functions.iter().map(|function| function.name.as_str()).collect();
    for function in functions {
        for line in function.blocks.iter().flat_map(|block| &block.lines) {
            let (_, right) = text::defined(line);
            if !is_followed(right, &defined) {
                return Err(format!("{}: a call that is not followed: {line}", function.name));
            }
        }
    }
    Ok(())
}

/// All that stands outside the functions speaks of no product, and the last function ends.
fn nothing_outside(module: &str) -> Result<(), String> {
    let mut inside = false;
    for line in module.lines() {
        if line.starts_with("define ") {
            inside = true;
        } else if line == "}" {
            inside = false;
        } else if !inside && (speaks_of_products(line) > 0 || line.starts_with("module asm")) {
            return Err(format!("not understood: {line}"));
        }
    }
    if inside {
        return Err("the module breaks off within a function".to_string());
    }
    Ok(())
}

/// A call leads to a function of the module, or to one of LLVM's own, which `product` knows if it
/// multiplies, or copies or fills.
fn is_followed(right: &str, defined: &HashSet<&str>) -> bool {
    if right.starts_with("invoke ") || right.starts_with("callbr ") {
        return false;
    }
    let Some(call) = calls::call(right) else { return true };
    let plain = ["memcpy", "memmove", "memset"];
    call.name.is_some_and(|name| {
        name.starts_with("llvm.") || plain.contains(&name) || defined.contains(name)
    })
}
